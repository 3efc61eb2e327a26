;;; trac-mode.el --- TRAC T-64: its language server and its debugger  -*- lexical-binding: t -*-

;;; Commentary:

;; `trac' has to stand on PATH.  Where a program is open, M-x eglot or M-x lsp begins the language server.  With
;; dap-mode M-x dap-debug begins the debugger, by the template "TRAC", or M-x trac-debug, without a question;
;; M-x trac-step-back and M-x trac-reverse-continue go back.

;;; Code:

(defvar trac-mode-syntax-table
  (let ((table (make-syntax-table)))
    (modify-syntax-entry ?' "." table)
    (modify-syntax-entry ?\" "." table)
    (modify-syntax-entry ?# "'" table)
    table)
  "The syntax of TRAC: parentheses alone have a meaning.")

;;;###autoload
(define-derived-mode trac-mode prog-mode "TRAC"
  "A mode for programs in TRAC T-64."
  (setq-local comment-start nil))

;;;###autoload
(add-to-list 'auto-mode-alist '("\\.trac\\'" . trac-mode))

(defvar eglot-server-programs)
(defvar lsp-language-id-configuration)
(declare-function lsp-register-client "lsp-mode")
(declare-function lsp-stdio-connection "lsp-mode")
(declare-function lsp-activate-on "lsp-mode")
(declare-function make-lsp-client "lsp-mode")
(declare-function dap-debug "dap-mode")
(declare-function dap-register-debug-provider "dap-mode")
(declare-function dap-register-debug-template "dap-mode")
(declare-function dap--cur-session-or-die "dap-mode")
(declare-function dap--step "dap-mode")

(with-eval-after-load 'eglot
  (add-to-list 'eglot-server-programs '(trac-mode "trac" "lsp")))

(with-eval-after-load 'lsp-mode
  (add-to-list 'lsp-language-id-configuration '(trac-mode . "trac"))
  (lsp-register-client
   (make-lsp-client :new-connection (lsp-stdio-connection '("trac" "lsp"))
                    :activation-fn (lsp-activate-on "trac")
                    :server-id 'trac)))

(defun trac-launch (configuration)
  "Complete what CONFIGURATION of `dap-debug' leaves out."
  (dolist (it `((:request "launch") (:name "TRAC") (:dap-server-path ("trac" "dap"))
                (:program ,(buffer-file-name)) (:stopOnEntry t))
              configuration)
    (unless (plist-member configuration (car it))
      (setq configuration (plist-put configuration (car it) (cadr it))))))

(with-eval-after-load 'dap-mode
  (dap-register-debug-provider "trac" #'trac-launch)
  (dap-register-debug-template "TRAC" '(:type "trac" :request "launch" :name "TRAC")))

(defun trac-debug ()
  "Debug the program of this buffer, from before its first step."
  (interactive)
  (dap-debug (list :type "trac")))

(defun trac-step-back ()
  "Go back to the call before."
  (interactive)
  (dap--step "stepBack" (dap--cur-session-or-die)))

(defun trac-reverse-continue ()
  "Go back to a breakpoint, or to the first step."
  (interactive)
  (dap--step "reverseContinue" (dap--cur-session-or-die)))

(provide 'trac-mode)
;;; trac-mode.el ends here
