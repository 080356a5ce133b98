;;; session.el --- a session of Emacs, as scripts/editor_cases.py runs it -*- lexical-binding: t; -*-

;; FOLDER is a copy of photos/, and the init file is the one of docs/EDITORS.md.  Each line that it prints tells what was seen.

;;; Code:

(defun say (form &rest values)
  "Print a line by FORM and VALUES."
  (princ (concat (apply #'format form values) "\n")))

(defun faces (text words)
  "The faces that WORDS have where TEXT begins the search for each."
  (goto-char (point-min))
  (search-forward text)
  (goto-char (match-beginning 0))
  (dolist (word words)
    (search-forward word)
    (say "face %s %s" word (get-text-property (match-beginning 0) 'face))))

(defun indented-again ()
  "Whether indentation gives back the text of the buffer, from a text without blanks before its lines."
  (let ((text (buffer-string)))
    (with-temp-buffer
      (insert (replace-regexp-in-string "^ +" "" text))
      (cedar-mode)
      (let ((inhibit-message t))
        (indent-region (point-min) (point-max)))
      (equal (buffer-string) text))))

(unless (require 'eglot nil t)
  (say "no eglot")
  (kill-emacs))

(setq-default case-fold-search nil)

(defconst most 60 "The seconds that an answer may take: a busy machine takes its time.")
(setq eglot-sync-connect most eglot-connect-timeout most eglot-send-changes-idle-time 0)

(defun wait-until (holds)
  "Take what comes from the server until HOLDS answers something."
  (let ((end (+ (float-time) most)))
    (while (and (not (funcall holds)) (< (float-time) end))
      (accept-process-output nil 0.05))))

(defun visit (name)
  "Visit the file NAME of the folder, as a person does: what waits for the end of a command is done."
  (switch-to-buffer (find-file-noselect (expand-file-name name (getenv "FOLDER"))))
  (font-lock-ensure)
  (run-hooks 'post-command-hook)
  (wait-until #'eglot-managed-p))

(defun findings ()
  "The findings of the current buffer, by their places."
  (sort (flymake-diagnostics)
        (lambda (one other) (< (flymake-diagnostic-beg one) (flymake-diagnostic-beg other)))))

(defun say-findings (title count)
  "Print under TITLE the findings of the current buffer, once there are COUNT of them."
  (wait-until (lambda () (flymake-start) (= (length (findings)) count)))
  (say "-- %s" title)
  (dolist (finding (findings))
    (say "%d `%s`" (line-number-at-pos (flymake-diagnostic-beg finding))
         (buffer-substring (flymake-diagnostic-beg finding) (flymake-diagnostic-end finding)))))

(defun servers ()
  "How many servers run."
  (let ((count 0))
    (maphash (lambda (_ all) (setq count (+ count (length all)))) eglot--servers-by-project)
    count))

(visit "edit.cedar")
(say "mode %s" major-mode)
(faces "@id(\"guarded\")" '("id" "guarded" "permit" "principal" "Action" "when" "has" "device" "owner"))
(faces "// Ünï" '("//"))
(comment-region (point-min) (line-end-position 2))
(say "comment %s" (buffer-substring (line-beginning-position 2) (line-end-position 2)))
(uncomment-region (point-min) (line-end-position 2))
(revert-buffer t t t)
(visit "edit.cedar")
(say-findings "opened" 4)

(visit "photos.cedarschema")
(say "mode %s" major-mode)
(faces "entity User" '("entity" "User" "name" "String" "vip" "Bool"))
(say "indented again %s" (indented-again))
(say "servers %d" (servers))
(search-forward "isPublic")
(replace-match "isPubic")
(eglot--signal-textDocument/didChange)
(visit "edit.cedar")
(say-findings "after the schema was edited, unsaved" 3)
(let ((server (eglot-current-server)))
  (eglot-shutdown server)
  (say "stopped %s" (not (jsonrpc-running-p server))))

(setq cedar-server-options '(:level 0))
(cedar-mode)
(visit "edit.cedar")
(say-findings "at level 0" 5)
(eglot-shutdown (eglot-current-server))

;;; session.el ends here
