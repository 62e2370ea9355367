;;; y86.el --- modes for Y86-64 control logic, assembly and object files  -*- lexical-binding: t; -*-

;;; Commentary:
;; (add-to-list 'load-path "FOLDER/tools/editors/emacs") (require 'y86)
;; `M-x compile' checks the file: `y86-lab explain --places' for HCL, `y86-tell fault' for assembly.  `C-x `' goes to the places.

;;; Code:

(require 'compile)

(defgroup y86 nil
  "The Y86-64 workbench."
  :group 'languages)

(defcustom y86-folder nil
  "The folder of the workbench, if its programs aren't on the PATH."
  :type '(choice (const :tag "On the PATH" nil) directory))

(defun y86--command (program)
  "The command PROGRAM, by its folder if that is known."
  (shell-quote-argument (if y86-folder (expand-file-name program y86-folder) program)))

(defun y86--compile (program words)
  "Set `compile-command' to PROGRAM with WORDS for the file of this buffer."
  (when buffer-file-name
    (setq-local compile-command
                (format "%s %s %s" (y86--command program) words
                        (shell-quote-argument (file-name-nondirectory buffer-file-name))))))

(defvar y86-comment-table
  (let ((table (make-syntax-table)))
    (modify-syntax-entry ?# "<" table)
    (modify-syntax-entry ?\n ">" table)
    (modify-syntax-entry ?_ "w" table)
    (modify-syntax-entry ?% "w" table)
    table)
  "Words, and comments from `#' to the end of a line.")

(defvar y86-hcl-table
  (let ((table (copy-syntax-table y86-comment-table)))
    (modify-syntax-entry ?' "\"" table)
    table)
  "The same, with texts in single quotes.")

(defconst y86-hcl-keywords
  `((,(regexp-opt '("word" "bool" "int" "wordsig" "boolsig" "intsig" "quote") 'words) . font-lock-type-face)
    ("\\<in\\>" . font-lock-keyword-face)
    ("^\\s-*\\(?:word\\|bool\\)\\s-+\\(\\w+\\)" 1 font-lock-function-name-face)
    ("\\<[FDEMW]_\\(?:stall\\|bubble\\)\\>" . font-lock-keyword-face)
    (,(concat "\\<\\(?:I\\(?:HALT\\|NOP\\|RRMOVQ\\|IRMOVQ\\|RMMOVQ\\|MRMOVQ\\|OPQ\\|JXX\\|CALL\\|RET\\|PUSHQ\\|POPQ\\|IADDQ\\)"
              "\\|FNONE\\|UNCOND\\|ALU\\(?:ADD\\|SUB\\|AND\\|XOR\\)\\|S\\(?:BUB\\|AOK\\|HLT\\|ADR\\|INS\\)"
              "\\|R\\(?:RAX\\|RCX\\|RDX\\|RBX\\|RSP\\|RBP\\|RSI\\|RDI\\|NONE\\)\\)\\>")
     . font-lock-constant-face)
    ("\\<[FDEMWp]_?\\(?:stat\\|icode\\|ifun\\|r[AB]\\|val[ABCEMP]\\|dst[EM]\\|src[AB]\\|Cnd\\|predPC\\)\\>"
     . font-lock-variable-name-face))
  "Faces of control logic.")

(defconst y86-assembly-keywords
  `((,(regexp-opt '("halt" "nop" "ret" "rrmovq" "irmovq" "rmmovq" "mrmovq" "addq" "subq" "andq" "xorq" "iaddq"
                    "pushq" "popq" "call" "cmovle" "cmovl" "cmove" "cmovne" "cmovge" "cmovg"
                    "jmp" "jle" "jl" "je" "jne" "jge" "jg") 'words)
     . font-lock-keyword-face)
    ("\\.\\(?:pos\\|align\\|byte\\|word\\|long\\|quad\\)\\>" . font-lock-preprocessor-face)
    ("%\\(?:r[abcd]x\\|rsp\\|rbp\\|rsi\\|rdi\\|r8\\|r9\\|r1[0-4]\\)\\>" . font-lock-variable-name-face)
    ("^\\s-*\\([A-Za-z_]\\w*\\)\\s-*:" 1 font-lock-function-name-face))
  "Faces of assembly.")

;;;###autoload
(define-derived-mode y86-hcl-mode prog-mode "Y86-HCL"
  "Mode for the control logic of Y86-64 processors."
  :syntax-table y86-hcl-table
  (setq-local comment-start "# ")
  (setq-local font-lock-defaults '(y86-hcl-keywords))
  (y86--compile "y86-lab" "explain --places"))

;;;###autoload
(define-derived-mode y86-assembly-mode prog-mode "Y86"
  "Mode for Y86-64 assembly."
  :syntax-table y86-comment-table
  (setq-local comment-start "# ")
  (setq-local indent-tabs-mode nil)
  (setq-local tab-width 4)
  (setq-local font-lock-defaults '(y86-assembly-keywords))
  (y86--compile "y86-tell" "fault"))

;;;###autoload
(define-derived-mode y86-object-mode y86-assembly-mode "Y86-object"
  "Mode for Y86-64 object files."
  (setq-local compile-command (default-value 'compile-command)))

;; Other languages use `.hcl' too.
;;;###autoload
(add-to-list 'magic-mode-alist '(y86--is-hcl . y86-hcl-mode))
;;;###autoload
(add-to-list 'auto-mode-alist '("\\.ys\\'" . y86-assembly-mode))
;;;###autoload
(add-to-list 'auto-mode-alist '("\\.yo\\'" . y86-object-mode))

;;;###autoload
(defun y86--is-hcl ()
  "Whether this `.hcl' file defines a word or a Boolean."
  (and buffer-file-name
       (string-match-p "\\.hcl\\'" buffer-file-name)
       (save-excursion
         (goto-char (point-min))
         (re-search-forward "^\\s-*\\(?:word\\|bool\\|wordsig\\|boolsig\\|quote\\)\\>" nil t))))

(provide 'y86)
;;; y86.el ends here
