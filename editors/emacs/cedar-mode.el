;;; cedar-mode.el --- Cedar policies and schemas -*- lexical-binding: t; -*-

;; Version: 0.1.0
;; Package-Requires: ((emacs "28.1"))
;; SPDX-License-Identifier: Apache-2.0

;;; Commentary:

;; `cedar-mode' is for policies, and `cedar-schema-mode' for schemas.  Both have colours, comments and indentation.  Eglot
;; shows the findings of `cedar-language-server', and starts one server for both kinds of files of a project:
;;
;;     (add-hook 'cedar-mode-hook #'eglot-ensure)

;;; Code:

(defgroup cedar nil
  "Cedar policies and schemas."
  :group 'languages)

(defcustom cedar-indent-offset 2
  "The columns by which a line in brackets is indented."
  :type 'natnum
  :safe #'natnump)

(defcustom cedar-server-options nil
  "The settings of the server, as a list of `:schema', `:mode' and `:level'.
For example (:mode \"permissive\" :level 1).  The server takes them when it
starts."
  :type 'plist)

(defvar cedar-mode-syntax-table
  (let ((table (make-syntax-table)))
    (modify-syntax-entry ?/ ". 12" table)
    (modify-syntax-entry ?\n ">" table)
    (modify-syntax-entry ?\r ">" table)
    (modify-syntax-entry ?\" "\"" table)
    (modify-syntax-entry ?\\ "\\" table)
    (modify-syntax-entry ?_ "w" table)
    (modify-syntax-entry ?@ "'" table)
    (dolist (sign '(?= ?! ?< ?> ?& ?| ?+ ?- ?* ??))
      (modify-syntax-entry sign "." table))
    table)
  "The syntax of policies and schemas.")

(defvar cedar-font-lock-keywords
  `(("\\(@\\)[ \t]*\\(\\w+\\)" (1 font-lock-preprocessor-face) (2 font-lock-preprocessor-face))
    ;; A word behind `.' or `has', or before one `:', is an attribute, whatever else it means.
    ("\\.[ \t]*\\(\\w+\\)\\_>[ \t]*(" 1 font-lock-function-name-face)
    ("\\(?:\\.[ \t]*\\|\\_<has[ \t]+\\)\\([[:alpha:]_]\\w*\\)" 1 font-lock-variable-name-face)
    ("\\_<\\(\\w+\\)[ \t]*:\\(?:[^:]\\|$\\)" 1 font-lock-variable-name-face)
    ("\\_<\\(\\w+\\)[ \t]*::" 1 font-lock-type-face)
    ("\\(?:::[ \t]*\\|\\_<is[ \t]+\\)\\(\\w+\\)" 1 font-lock-type-face)
    (,(regexp-opt '("permit" "forbid" "when" "unless" "if" "then" "else" "in" "is" "has" "like") 'symbols)
     . font-lock-keyword-face)
    (,(regexp-opt '("true" "false") 'symbols) . font-lock-constant-face)
    (,(regexp-opt '("principal" "action" "resource" "context") 'symbols) . font-lock-builtin-face)
    ("\\?\\(?:principal\\|resource\\)\\_>" . font-lock-builtin-face)
    ("\\_<\\(ip\\|decimal\\|datetime\\|duration\\)[ \t]*(" 1 font-lock-function-name-face))
  "The colours of policies.")

(defvar cedar-schema-font-lock-keywords
  `(("\\(@\\)[ \t]*\\(\\w+\\)" (1 font-lock-preprocessor-face) (2 font-lock-preprocessor-face))
    ;; A word before one `:' is an attribute, whatever else it means.
    ("\\_<\\(\\w+\\)[ \t]*\\??[ \t]*:\\(?:[^:]\\|$\\)" 1 font-lock-variable-name-face)
    (,(regexp-opt '("namespace" "entity" "action" "type" "in" "tags" "enum" "appliesTo") 'symbols)
     . font-lock-keyword-face)
    (,(regexp-opt '("Bool" "Boolean" "Long" "String" "Set" "ipaddr" "decimal" "datetime" "duration") 'symbols)
     . font-lock-builtin-face)
    ("\\_<[[:alpha:]_]\\w*\\_>" . font-lock-type-face))
  "The colours of schemas.")

(defun cedar-indentation ()
  "The column of the line of point, by the brackets that are open before it."
  (save-excursion
    (back-to-indentation)
    (let* ((state (save-excursion (syntax-ppss (line-beginning-position))))
           (depth (- (nth 0 state) (skip-chars-forward "]})"))))
      (if (nth 3 state)
          (current-indentation)
        (* cedar-indent-offset (max 0 depth))))))

(defun cedar-indent-line ()
  "Indent the line of point.  A line that begins in a text is left as it is."
  (interactive)
  (let ((column (cedar-indentation)))
    (if (<= (current-column) (current-indentation))
        (indent-line-to column)
      (save-excursion (indent-line-to column)))))

;;;###autoload
(define-derived-mode cedar-mode prog-mode "Cedar"
  "A mode for Cedar policies."
  (setq-local comment-start "// ")
  (setq-local comment-start-skip "//+[ \t]*")
  (setq-local comment-end "")
  (setq-local indent-line-function #'cedar-indent-line)
  (setq-local electric-indent-chars (append "]})" electric-indent-chars))
  (setq-local font-lock-defaults '(cedar-font-lock-keywords)))

;;;###autoload
(define-derived-mode cedar-schema-mode cedar-mode "Cedar schema"
  "A mode for Cedar schemas."
  (setq-local font-lock-defaults '(cedar-schema-font-lock-keywords)))

;;;###autoload
(add-to-list 'auto-mode-alist '("\\.cedar\\'" . cedar-mode))
;;;###autoload
(add-to-list 'auto-mode-alist '("\\.cedarschema\\'" . cedar-schema-mode))

(defun cedar-server-command (&rest _)
  "The command of the server, with its settings, as Eglot takes it."
  (cons "cedar-language-server"
        (and cedar-server-options (list :initializationOptions cedar-server-options))))

(defvar eglot-server-programs)
(with-eval-after-load 'eglot
  (add-to-list 'eglot-server-programs
               ;; (the first mode that fits counts, and each schema's mode is a `cedar-mode' too)
               '(((cedar-schema-mode :language-id "cedarschema") (cedar-mode :language-id "cedar"))
                 . cedar-server-command)))

(provide 'cedar-mode)
;;; cedar-mode.el ends here
