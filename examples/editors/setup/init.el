(add-to-list 'load-path "~/carrotknife/editors/emacs")
(require 'cedar-mode)
(add-hook 'cedar-mode-hook #'eglot-ensure)
