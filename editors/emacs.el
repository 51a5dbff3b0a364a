;; Emacs 29 and later, or an earlier one with Eglot as a package: Eglot starts rvls for files of assembly. Put this into init.el; rvls has to be on the PATH.
;; Emacs 30 shows addresses and bytes at the ends of lines (eglot-inlay-hints-mode).
;; :base is where the first section begins.
(require 'eglot)
(add-to-list 'eglot-server-programs
             '(asm-mode . ("rvls" :initializationOptions (:base "0"))))
(setq-default asm-comment-char ?#)
(add-hook 'asm-mode-hook #'eglot-ensure)
