;;; debugging.el --- drives `trac dap' by dap-mode in batch Emacs  -*- lexical-binding: t -*-

;; emacs --batch -L share/editors/emacs -l tests/support/debugging.el PROGRAM-OF-THE-ADAPTER FILE
;; Prints a line for each place where the wrong factorial stands, and what is seen there.

(package-initialize)
(setq user-emacs-directory (file-name-as-directory (getenv "HOME"))
      dap-auto-configure-features nil
      lsp-session-file (expand-file-name "session" user-emacs-directory)
      dap-breakpoints-file (expand-file-name "breakpoints" user-emacs-directory))
(require 'dap-mode)
(require 'trac-mode)

(defvar frame nil "The innermost frame where the program stands.")

(defun told (words &rest values)
  "Print WORDS with VALUES as a line."
  (princ (concat (apply #'format words values) "\n")))

(defun wait ()
  "Wait until the program stands, and print where."
  (let ((left 1000))
    (while (and (not frame) (> left 0))
      (accept-process-output nil 0.01)
      (setq left (1- left))))
  (told "%s: line %s column %s" (gethash "name" frame) (gethash "line" frame) (gethash "column" frame)))

(defun ask (command &rest arguments)
  "Ask for COMMAND with ARGUMENTS; what is responded."
  (apply #'dap-request (dap--cur-session-or-die) command arguments))

(defun form-named (name)
  "The form of NAME, as a person sees it among the variables."
  (let ((frame-id (gethash "id" frame)) found)
    (dolist (scope (append (gethash "scopes" (ask "scopes" :frameId frame-id)) nil))
      (when (equal (gethash "name" scope) "Forms")
        (let ((reference (gethash "variablesReference" scope)))
          (dolist (it (append (gethash "variables" (ask "variables" :variablesReference reference)) nil))
            (when (equal (gethash "name" it) name)
              (setq found (gethash "value" it)))))))
    found))

(add-hook 'dap-stack-frame-changed-hook
          (lambda (session) (setq frame (dap--debug-session-active-frame session))))
(find-file (cadr command-line-args-left))
(let ((program (car command-line-args-left)))
  (dap-debug (list :type "trac" :stopOnEntry :json-false :dap-server-path (list program "--dap"))))
(wait)
(trac-step-back)
(setq frame nil)
(wait)
(told "Factorial: %s" (form-named "Factorial"))
(goto-char (point-min))
(dap--breakpoints-changed (list (list :marker (point-marker) :point (point) :condition "1 = 1")))
(trac-reverse-continue)
(setq frame nil)
(wait)
(told "%s" (gethash "result" (ask "evaluate" :expression "y . 3 1" :context "repl" :frameId (gethash "id" frame))))
(dap-disconnect (dap--cur-session-or-die))
(setq command-line-args-left nil)
;;; debugging.el ends here
