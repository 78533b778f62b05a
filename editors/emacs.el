;; `ra_serve` for Rust files in Emacs, by eglot; in init.el, with your own PATH.
;; Then open a Rust file, and M-x eglot.
;; Tried: Emacs 28.2, eglot 1.9, rust-mode 0.4.0 (hover, before and after an edit; diagnostics
;; that come and go). Emacs 28 lacks these two packages; Debian has them as elpa-eglot and
;; elpa-rust-mode.
;; Not tried: Emacs 29 and later, with an eglot of their own and rust-ts-mode.
(with-eval-after-load 'eglot
  (add-to-list 'eglot-server-programs '(rust-mode . ("PATH/bin/ra_serve" "lsp"))))

;; Under lsp-mode its client of rust-analyzer serves (tried: lsp-mode 8.0.0). It shows hovers as
;; Markdown, so that of `__init__` it makes a bold "init".
;; (setq lsp-rust-analyzer-server-command '("PATH/bin/ra_serve" "lsp"))
