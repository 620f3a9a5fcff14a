;;; editors.el --- A session of Emacs with the language server -*- lexical-binding: t -*-
;; See editors.sh beside it. The command toml-span is the server, $OUT gets a line for each answer, and $SETUP is the
;; setup that users get, editors/emacs.el.
(require 'package)
(package-initialize)
(require 'eglot)
(require 'flymake)
(load (getenv "SETUP") nil t)

(defvar answers (generate-new-buffer "answers"))

(defun say (name value)
  "Write a line with a name and a value."
  (with-current-buffer answers (insert (format "%s: %S\n" name value))))

(defun await (test)
  "Wait at most five seconds, until TEST returns something."
  (let ((tries 100))
    (while (and (not (funcall test)) (> tries 0))
      (accept-process-output nil 0.05)
      (setq tries (1- tries)))))

(defun diagnostics ()
  "Return the offsets and the message of each diagnostic."
  (flymake-start)
  (mapcar (lambda (found)
            (list (flymake-diagnostic-beg found) (flymake-diagnostic-end found)
                  (car (split-string (flymake-diagnostic-text found) "\n"))))
          (flymake-diagnostics)))

(defun go-to (text)
  "Move to the start of the first mention of TEXT."
  (goto-char (point-min))
  (search-forward text)
  (goto-char (match-beginning 0)))

(defun replace-line (text)
  "Write TEXT in place of the rest of the line, and tell the server."
  (delete-region (point) (line-end-position))
  (insert text)
  (eglot--signal-textDocument/didChange))

(defun apply-action (title)
  "Apply the code action at point that has this TITLE."
  (dolist (action (append (eglot-code-actions (point) (point)) nil))
    (when (equal (plist-get action :title) title)
      (eglot--apply-workspace-edit (plist-get action :edit) nil)
      (eglot--signal-textDocument/didChange))))

(setq-default tab-width 4)
(setq create-lockfiles nil
      eglot-sync-connect t
      eglot-autoshutdown nil
      eldoc-idle-delay 1000)
(find-file "a.toml")
(apply #'eglot (eglot--guess-contact))
(await #'diagnostics)
(say "mode" (symbol-name major-mode))
(say "diagnostics" (diagnostics))

(go-to "True")
(apply-action "write `true`")
(await (lambda () (not (diagnostics))))
(say "repaired" (list (buffer-substring (point-min) (line-end-position)) (diagnostics)))

(defun names (index front)
  "Return the names in an INDEX of imenu, each after FRONT."
  (mapcan (lambda (entry)
            (let ((name (concat front (substring-no-properties (car entry)))))
              (if (listp (cdr entry)) (names (cdr entry) (concat name "/")) (list name))))
          index))
(say "symbols" (names (funcall imenu-create-index-function) ""))

(go-to "weight")
(forward-char)
(let ((hover (jsonrpc-request (eglot-current-server) :textDocument/hover (eglot--TextDocumentPositionParams))))
  (say "hover" (substring-no-properties (eglot--hover-info (plist-get hover :contents) nil))))

(go-to "port=2")
(replace-line "p")
(let ((found (eglot-completion-at-point)))
  (say "completion" (sort (mapcar #'substring-no-properties (all-completions "" (nth 2 found))) #'string<)))
(beginning-of-line)
(replace-line "port=2")

(go-to "tls]")
(eglot-rename "secure")
(eglot--signal-textDocument/didChange)
(go-to "[ 1,2 ]")
(say "actions" (mapcar (lambda (action) (plist-get action :title)) (eglot-code-actions (point) (point))))
(apply-action "Write array with one element per line")
(eglot-format-buffer)
(let ((text (buffer-string)))
  (with-current-buffer answers (insert text)))
(set-buffer-modified-p nil)
(eglot-shutdown (eglot-current-server))
(with-current-buffer answers
  (let ((coding-system-for-write 'utf-8))
    (write-region nil nil (getenv "OUT") nil 'silent)))
