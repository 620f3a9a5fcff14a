;;; lsp-mode.el --- A session of Emacs with lsp-mode -*- lexical-binding: t -*-
;; See recipes.sh beside it. The command toml-span is the server, the file `answers' gets a line for each answer, and
;; $SETUP is the setup that users get.
(package-initialize)
(setq lsp-enable-snippet nil lsp-restart 'ignore create-lockfiles nil lsp-keep-workspace-alive nil)
(load (getenv "SETUP") nil t)
(require 'lsp-mode)

(defun say (name value)
  "Write a line with a name and a value."
  (let ((coding-system-for-write 'utf-8))
    (write-region (format "%s: %S\n" name value) nil "../answers" t 'silent)))

(defun await (test)
  "Wait at most ten seconds, until TEST returns something."
  (let ((tries 200))
    (while (and (not (funcall test)) (> tries 0))
      (accept-process-output nil 0.05)
      (setq tries (1- tries)))))

(defun say-line (text)
  "Write the line that has TEXT."
  (goto-char (point-min))
  (search-forward text)
  (say "line" (buffer-substring-no-properties (line-beginning-position) (line-end-position))))

(find-file "project/a.toml")
(lsp-workspace-folders-add (expand-file-name default-directory))
(lsp)
(await #'lsp-workspaces)
(say "clients" (mapcar (lambda (it) (lsp--client-server-id (lsp--workspace-client it))) (lsp-workspaces)))
(await (lambda () (> (hash-table-count (lsp-diagnostics)) 0)))
(search-forward "Tru")
(say "actions" (mapcar #'lsp:code-action-title (lsp-code-actions-at-point)))
(lsp-execute-code-action (car (append (lsp-code-actions-at-point) nil)))
(say-line "name")
(search-forward "port=2")
(delete-region (line-beginning-position) (line-end-position))
(insert "w")
(say "completion" (mapcar #'substring-no-properties (all-completions "" (nth 2 (lsp-completion-at-point)))))
(delete-region (line-beginning-position) (line-end-position))
(insert "port=2")
(goto-char (point-min))
(search-forward "[server.t")
(lsp-rename "secure")
(say-line "[server.s")
(lsp-format-buffer)
(say-line "größe")
(set-buffer-modified-p nil)
