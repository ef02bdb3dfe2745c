;;; m36.el --- ALM sources and boot texts of m36 -*- lexical-binding: t -*-

;;; Commentary:

;; Modes for sources in ALM and for boot texts.  With eglot or lsp-mode they are checked as they are
;; written, by m36-lsp; with dap-mode a folder is debugged by m36-dap.  `editors/make' writes the
;; lists of names.

;;; Code:

;; begin names
(defconst m36-instructions
  '("absa" "ada" "adaq" "adl" "adla" "adlaq" "adlq" "adlx0" "adlx1" "adlx2" "adlx3" "adlx4" "adlx5"
    "adlx6" "adlx7" "adq" "adx0" "adx1" "adx2" "adx3" "adx4" "adx5" "adx6" "adx7" "alr" "als" "ana"
    "anaq" "anq" "ansa" "ansq" "ansx0" "ansx1" "ansx2" "ansx3" "ansx4" "ansx5" "ansx6" "ansx7"
    "anx0" "anx1" "anx2" "anx3" "anx4" "anx5" "anx6" "anx7" "aos" "arl" "ars" "asa" "asq" "asx0"
    "asx1" "asx2" "asx3" "asx4" "asx5" "asx6" "asx7" "awca" "awcq" "call6" "camp" "cams" "cana"
    "canaq" "canq" "canx0" "canx1" "canx2" "canx3" "canx4" "canx5" "canx6" "canx7" "cmk" "cmpa"
    "cmpaq" "cmpq" "cmpx0" "cmpx1" "cmpx2" "cmpx3" "cmpx4" "cmpx5" "cmpx6" "cmpx7" "cnaa" "cnaaq"
    "cnaq" "cnax0" "cnax1" "cnax2" "cnax3" "cnax4" "cnax5" "cnax6" "cnax7" "dis" "div" "drl" "eaa"
    "eaq" "eax0" "eax1" "eax2" "eax3" "eax4" "eax5" "eax6" "eax7" "epaq" "epbp0" "epbp1" "epbp2"
    "epbp3" "epbp4" "epbp5" "epbp6" "epbp7" "epp0" "epp1" "epp2" "epp3" "epp4" "epp5" "epp6" "epp7"
    "era" "eraq" "erq" "ersa" "ersq" "ersx0" "ersx1" "ersx2" "ersx3" "ersx4" "ersx5" "ersx6"
    "ersx7" "erx0" "erx1" "erx2" "erx3" "erx4" "erx5" "erx6" "erx7" "lca" "lcaq" "lcq" "lcx0"
    "lcx1" "lcx2" "lcx3" "lcx4" "lcx5" "lcx6" "lcx7" "lda" "ldac" "ldaq" "ldbr" "ldi" "ldq" "ldqc"
    "ldx0" "ldx1" "ldx2" "ldx3" "ldx4" "ldx5" "ldx6" "ldx7" "llr" "lls" "lpri" "lprp0" "lprp1"
    "lprp2" "lprp3" "lprp4" "lprp5" "lprp6" "lprp7" "lrl" "lrs" "lxl0" "lxl1" "lxl2" "lxl3" "lxl4"
    "lxl5" "lxl6" "lxl7" "mme" "mpy" "neg" "negl" "nop" "ora" "oraq" "orq" "orsa" "orsq" "orsx0"
    "orsx1" "orsx2" "orsx3" "orsx4" "orsx5" "orsx6" "orsx7" "orx0" "orx1" "orx2" "orx3" "orx4"
    "orx5" "orx6" "orx7" "qlr" "qls" "qrl" "qrs" "rtcd" "sba" "sbaq" "sbla" "sblaq" "sblq" "sblx0"
    "sblx1" "sblx2" "sblx3" "sblx4" "sblx5" "sblx6" "sblx7" "sbq" "sbx0" "sbx1" "sbx2" "sbx3"
    "sbx4" "sbx5" "sbx6" "sbx7" "sdbr" "spbp0" "spbp1" "spbp2" "spbp3" "spbp4" "spbp5" "spbp6"
    "spbp7" "spri" "spri0" "spri1" "spri2" "spri3" "spri4" "spri5" "spri6" "spri7" "ssa" "ssq"
    "ssx0" "ssx1" "ssx2" "ssx3" "ssx4" "ssx5" "ssx6" "ssx7" "sta" "stac" "stacq" "staq" "stcd"
    "sti" "stq" "stx0" "stx1" "stx2" "stx3" "stx4" "stx5" "stx6" "stx7" "stz" "swca" "swcq" "sxl0"
    "sxl1" "sxl2" "sxl3" "sxl4" "sxl5" "sxl6" "sxl7" "szn" "sznc" "tmi" "tmoz" "tnc" "tnz" "tov"
    "tpl" "tpnz" "tra" "trc" "tsp0" "tsp1" "tsp2" "tsp3" "tsp4" "tsp5" "tsp6" "tsp7" "tsx0" "tsx1"
    "tsx2" "tsx3" "tsx4" "tsx5" "tsx6" "tsx7" "ttf" "tze")
  "The instructions of ALM.")
(defconst m36-operations
  '("aci" "bss" "dec" "end" "entry" "entrybound" "equ" "even" "oct" "segdef" "use" "zero")
  "The operations that are no instructions.")
(defconst m36-boot-lines
  '("frames" "work" "library" "segment" "name" "start")
  "The lines of boot texts.")
(defconst m36-boot-kinds
  '("object" "gate" "data")
  "The kinds of segments.")
;; end names

(defvar m36-lsp-command '("m36-lsp")
  "The language server, with its words.")

(defvar m36-dap-command '("m36-dap")
  "The debug adapter, with its words.")

(defvar alm-mode-syntax-table
  (let ((table (make-syntax-table)))
    (modify-syntax-entry ?_ "w" table)
    (modify-syntax-entry ?. "w" table)
    (modify-syntax-entry ?\" "<" table)
    (modify-syntax-entry ?\n ">" table)
    table)
  "In ALM a comment goes from a quotation mark to the end of the line.")

(defconst alm-font-lock
  `(("\\_<\\([A-Za-z_][A-Za-z0-9_.]*\\):" 1 font-lock-function-name-face)
    (,(concat "\\(?:^\\|:\\)[ \t]*" (regexp-opt m36-instructions t) "\\_>")
     1 font-lock-keyword-face)
    (,(concat "\\(?:^\\|:\\)[ \t]*" (regexp-opt m36-operations t) "\\_>")
     1 font-lock-preprocessor-face)
    ("\\*?\\_<[A-Za-z_][A-Za-z0-9_.]*\\$[A-Za-z0-9_.]*" 0 font-lock-variable-name-face)
    ("\\_<[0-9]+\\_>" 0 font-lock-constant-face))
  "What is shown in colours in a source.")

(defconst m36-boot-font-lock
  `((,(concat "^" (regexp-opt m36-boot-lines t) " ") 1 font-lock-keyword-face)
    (,(concat " " (regexp-opt m36-boot-kinds t) " ") 1 font-lock-type-face)
    ("[A-Za-z0-9_.]*>[A-Za-z0-9_.>]*" 0 font-lock-string-face)
    ("[A-Za-z0-9_.]+\\$[A-Za-z0-9_.]+" 0 font-lock-function-name-face))
  "What is shown in colours in a boot text.")

;;;###autoload
(define-derived-mode alm-mode prog-mode "ALM"
  "Sources in ALM."
  (setq-local comment-start "\" " comment-end "")
  (setq-local font-lock-defaults '(alm-font-lock)))

;;;###autoload
(define-derived-mode m36-boot-mode prog-mode "Boot"
  "Boot texts of m36."
  (setq-local require-final-newline t)
  (setq-local font-lock-defaults '(m36-boot-font-lock)))

;;;###autoload
(add-to-list 'auto-mode-alist '("\\.alm\\'" . alm-mode))
;;;###autoload
(add-to-list 'auto-mode-alist '("/boot\\'" . m36-boot-mode))

;; The language server.

(defvar eglot-server-programs)
(with-eval-after-load 'eglot
  (add-to-list 'eglot-server-programs `((alm-mode m36-boot-mode) . ,m36-lsp-command)))

(defvar lsp-language-id-configuration)
(declare-function lsp-register-client "lsp-mode")
(declare-function make-lsp-client "lsp-mode")
(declare-function lsp-stdio-connection "lsp-mode")
(with-eval-after-load 'lsp-mode
  (add-to-list 'lsp-language-id-configuration '(alm-mode . "alm"))
  (add-to-list 'lsp-language-id-configuration '(m36-boot-mode . "m36boot"))
  (lsp-register-client
   (make-lsp-client :new-connection (lsp-stdio-connection (lambda () m36-lsp-command))
                    :major-modes '(alm-mode m36-boot-mode)
                    :server-id 'm36-lsp)))

;; The debug adapter.

(declare-function dap-register-debug-provider "dap-mode")
(declare-function dap-register-debug-template "dap-mode")
(with-eval-after-load 'dap-mode
  (dap-register-debug-provider
   "m36"
   (lambda (conf)
     (plist-put conf :dap-server-path m36-dap-command)
     (unless (plist-get conf :program)
       (plist-put conf :program (directory-file-name default-directory)))
     conf))
  (dap-register-debug-template
   "m36: this folder"
   '(:type "m36" :request "launch" :name "m36: this folder" :stopOnEntry t)))

(provide 'm36)
;;; m36.el ends here
