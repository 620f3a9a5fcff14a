;; Then M-x lsp in a TOML file
(with-eval-after-load 'lsp-mode
  (add-to-list 'lsp-language-id-configuration '(conf-toml-mode . "toml"))
  (add-to-list 'lsp-language-id-configuration '(toml-ts-mode . "toml"))
  (lsp-register-client
   (make-lsp-client :new-connection (lsp-stdio-connection '("toml-span" "lsp"))
                    :activation-fn (lsp-activate-on "toml")
                    :server-id 'toml-span)))
