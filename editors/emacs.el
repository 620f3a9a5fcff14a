;; Then M-x eglot in a TOML file
(with-eval-after-load 'eglot
  (add-to-list 'eglot-server-programs
               '((toml-ts-mode conf-toml-mode) . ("toml-span" "lsp"))))
