;;; ccalc-mode.el --- highlighting of descriptions of ccalc  -*- lexical-binding: t -*-

;;; Code:

(defvar ccalc-mode-syntax-table
  (let ((table (make-syntax-table)))
    (modify-syntax-entry ?% "<" table)
    (modify-syntax-entry ?\n ">" table)
    (modify-syntax-entry ?' "\"" table)
    (modify-syntax-entry ?_ "w" table)
    table)
  "The syntax of descriptions: comments go from % to the end of the line.")

(defconst ccalc-mode-keywords
  (list
   (cons (regexp-opt '("caused" "if" "after" "default" "inertial" "exogenous" "constraint" "always" "nonexecutable" "causes" "may"
                       "cause" "where" "noconcurrency")
                     'words)
         'font-lock-keyword-face)
   (cons (regexp-opt '("maxstep" "label" "claim" "sorts" "objects" "variables" "constants" "query" "include" "of") 'words)
         'font-lock-builtin-face)
   (cons (regexp-opt '("simpleFluent" "inertialFluent" "sdFluent" "rigid" "action" "exogenousAction" "attribute") 'words)
         'font-lock-type-face)
   (cons (regexp-opt '("true" "false" "none") 'words) 'font-lock-constant-face))
  "The words of the language.")

;;;###autoload
(define-derived-mode ccalc-mode prog-mode "CCalc"
  "Highlights descriptions of the causal calculator."
  (setq-local comment-start "% ")
  (setq-local font-lock-defaults '(ccalc-mode-keywords)))

;;;###autoload
(add-to-list 'auto-mode-alist '("\\.ccalc\\'" . ccalc-mode))

(provide 'ccalc-mode)
;;; ccalc-mode.el ends here
