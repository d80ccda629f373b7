;;; stack-modes.el --- The languages of the verified short stack  -*- lexical-binding: t -*-

;; Version: 1.0
;; Package-Requires: ((emacs "28.1"))
;; Keywords: languages

;;; Commentary:

;; Modes for Micro-Gypsy, Piton, values, the infix language and assembly texts of the FM9001; M-x eglot in a buffer starts the language server, and
;; dap-mode and dape find the debug adapter, where they are installed.

;;; Code:

(defgroup stack nil "The verified short stack." :group 'languages)

(defcustom stack-path "@STACK@"
  "The script `stack'."
  :type 'file)

(defvar stack-text-keywords
  '(("(\\(proc\\|program\\|call\\)[ \t\n]+\\([A-Za-z][A-Za-z0-9_*$-]*\\)" (1 font-lock-keyword-face) (2 font-lock-function-name-face))
    ("(\\(no-op\\|signal\\|seq\\|loop\\|if\\|begin\\)\\_>" 1 font-lock-keyword-face)
    ("(\\(mg-[a-z-]+\\)\\_>" 1 font-lock-builtin-face)
    ("\\_<\\(integer\\|boolean\\|character\\|array\\)\\_>" . font-lock-type-face)
    ("\\_<\\(leave\\|routineerror\\|spaceerror\\|true\\|false\\|#[0-9]+\\)\\_>" . font-lock-constant-face)))

(defvar stack-piton-keywords
  '(("(\\(piton\\)[ \t\n]+\\([A-Za-z][A-Za-z0-9_*$-]*\\)" (1 font-lock-keyword-face) (2 font-lock-function-name-face))
    ("(\\(dl\\)[ \t\n]+\\([A-Za-z][A-Za-z0-9_*$-]*\\)" (1 font-lock-keyword-face) (2 font-lock-constant-face))
    ("(\\(int\\|nat\\|bitv\\|bool\\|addr\\|pc\\|subr\\)\\_>" 1 font-lock-type-face)
    ("^ *(\\([a-z][a-z0-9*-]+\\)\\_>" 1 font-lock-builtin-face)
    (") (\\([a-z][a-z0-9*-]+\\)\\_>" 1 font-lock-builtin-face)))

(defvar stack-infix-keywords
  '(("\\_<\\(int\\|bool\\)\\_>" . font-lock-type-face)
    ("\\_<\\(while\\|if\\|else\\|not\\|and\\|or\\)\\_>" . font-lock-keyword-face)
    ("\\_<\\(true\\|false\\)\\_>" . font-lock-constant-face)))

(defvar stack-assembly-keywords
  '(("^ *\\([A-Za-z][A-Za-z0-9_*$-]*\\):" 1 font-lock-function-name-face)
    ("\\(\\.\\(?:base\\|size\\|final\\|start\\|word\\)\\)\\_>" 1 font-lock-keyword-face)
    ("\\_<\\(MOVE\\|INC\\|ADDC\\|ADD\\|NEG\\|DEC\\|SUBB\\|SUB\\|ROR\\|ASR\\|LSR\\|XOR\\|OR\\|AND\\|NOT\\|M15\\)\\_>" . font-lock-builtin-face)
    ("\\_<r\\(?:1[0-5]\\|[0-9]\\)\\_>" . font-lock-variable-name-face)))

;;;###autoload
(define-derived-mode gypsy-mode lisp-data-mode "Micro-Gypsy"
  (setq-local font-lock-defaults '(stack-text-keywords)))

;;;###autoload
(define-derived-mode piton-mode lisp-data-mode "Piton"
  (setq-local font-lock-defaults '(stack-piton-keywords)))

;;;###autoload
(define-derived-mode stackvalues-mode lisp-data-mode "Values"
  (setq-local font-lock-defaults '(stack-text-keywords)))

(defvar stack-infix-syntax
  (let ((table (make-syntax-table)))
    (modify-syntax-entry ?_ "_" table)
    table))

;;;###autoload
(define-derived-mode mini-mode prog-mode "Infix"
  :syntax-table stack-infix-syntax
  (setq-local font-lock-defaults '(stack-infix-keywords)))

(defvar stack-assembly-syntax
  (let ((table (make-syntax-table)))
    (modify-syntax-entry ?\; "<" table)
    (modify-syntax-entry ?\n ">" table)
    table))

;;;###autoload
(define-derived-mode fm9001-mode prog-mode "FM9001"
  :syntax-table stack-assembly-syntax
  (setq-local font-lock-defaults '(stack-assembly-keywords) comment-start "; " indent-tabs-mode nil))

;;;###autoload
(progn
  (add-to-list 'auto-mode-alist '("\\.gypsy\\'" . gypsy-mode))
  (add-to-list 'auto-mode-alist '("\\.piton\\'" . piton-mode))
  (add-to-list 'auto-mode-alist '("\\.mini\\'" . mini-mode))
  (add-to-list 'auto-mode-alist '("\\.values\\'" . stackvalues-mode))
  (add-to-list 'magic-mode-alist '("\\(?:[ \t]*\\(?:;.*\\)?\n\\)*[ \t]*\\.base " . fm9001-mode)))

(defvar stack-modes '(gypsy-mode piton-mode mini-mode stackvalues-mode fm9001-mode))

(with-eval-after-load 'eglot
  (add-to-list 'eglot-server-programs (cons stack-modes (list stack-path "editor" "server"))))

(with-eval-after-load 'lsp-mode
  (dolist (it '((gypsy-mode . "gypsy") (piton-mode . "piton") (mini-mode . "mini") (stackvalues-mode . "values") (fm9001-mode . "asm")))
    (add-to-list 'lsp-language-id-configuration it))
  (lsp-register-client
   (make-lsp-client :new-connection (lsp-stdio-connection (list stack-path "editor" "server")) :major-modes stack-modes :server-id 'stack)))

;; dap-mode: M-x dap-debug, and then the template of the stack.
(with-eval-after-load 'dap-mode
  (dap-register-debug-provider
   "stack"
   (lambda (conf)
     (dap--put-if-absent conf :dap-server-path (list stack-path "editor" "adapter"))
     (dap--put-if-absent conf :program (buffer-file-name))
     (dap--put-if-absent conf :request "launch")
     conf))
  (dap-register-debug-template "The verified short stack: this source" (list :type "stack" :request "launch" :name "This source")))

;; dape: M-x dape, and then stack.
(with-eval-after-load 'dape
  (add-to-list 'dape-configs
               `(stack modes (gypsy-mode mini-mode) command ,stack-path command-args ("editor" "adapter") :type "stack" :request "launch"
                       :program dape-buffer-default)))

(provide 'stack-modes)
;;; stack-modes.el ends here
