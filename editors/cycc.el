;;; cycc.el --- cycc in Emacs, from 28 on, by eglot -*- lexical-binding: t -*-
;; In init.el:  (load "PATH OF THIS REPOSITORY/editors/cycc.el")
;; eglot is part of Emacs from 29 on; before, it is the package eglot (in Debian elpa-eglot).

(require 'cc-mode)
(require 'eglot)

(defvar cycc-command "cycc" "The command that starts cycc.")

(define-derived-mode cyc-mode c-mode "Cyc"
  "Sources of cycc."
  (setq-local c-basic-offset 4))

(add-to-list 'auto-mode-alist '("\\.cyc\\'" . cyc-mode))
(add-to-list 'eglot-server-programs '(cyc-mode . (lambda (&rest _) (list cycc-command "lsp"))))
(add-hook 'cyc-mode-hook #'eglot-ensure)

(provide 'cycc)
