;;; holp.el --- Proof scripts of holp -*- lexical-binding: t; -*-

;; Colours, indentation, and a run up to the cursor whose open goals stand in a window of their own, over `holp run --json'.
;;
;; (add-to-list 'load-path "/path/to/editors/emacs")
;; (require 'holp)
;;
;; C-c C-RET, C-c RET  run up to the command at the cursor, and show its goals
;; C-c C-n    the same with one command more
;; C-c C-p    the same with one command less
;; C-c C-b    run the whole buffer
;; C-c C-e    run the whole buffer, and go to the next refusal behind the cursor
;; C-c C-s    show the goals again

;;; Code:

(require 'json)
(require 'subr-x)

(defgroup holp nil "Proof scripts of holp." :group 'languages)

(defcustom holp-program "holp"
  "The program that runs scripts."
  :type 'string)

(defcustom holp-scripts nil
  "Files of scripts that are run before the buffer, in order."
  :type '(repeat file)
  :safe (lambda (files) (and (listp files) (seq-every-p #'stringp files))))

(defface holp-done '((t :inherit highlight))
  "The commands that were run and accepted.")

(defface holp-refused '((t :inherit error :underline t))
  "A command that was refused.")

(defconst holp-commands '("thm" "show" "save" "var" "def" "newtype" "newconst" "goal" "e" "b" "p" "r"))

(defconst holp-combinators
  '("THEN" "THENL" "ORELSE" "REPEAT" "TRY" "HOST" "THENC" "ORELSEC" "REPEATC" "TRY_CONV" "RAND_CONV" "RATOR_CONV" "ABS_CONV"
    "SUB_CONV" "DEPTH_CONV" "ONCE_DEPTH_CONV" "TOP_DEPTH_CONV" "ALL_CONV" "NO_CONV" "REWR_CONV"))

(defun holp-begins-command-p (position)
  "Whether nothing but white space stands between POSITION and the command before."
  (save-excursion
    (goto-char position)
    (skip-chars-backward " \t\n")
    (or (bobp) (looking-back ";;" (max (point-min) (- (point) 2))))))

(defun holp-match-command (limit)
  "Find the next word before LIMIT that begins a command."
  (let (found)
    (while (and (not found) (re-search-forward (regexp-opt holp-commands 'symbols) limit t))
      (setq found (save-match-data (holp-begins-command-p (match-beginning 0)))))
    found))

(defconst holp-font-lock
  `((holp-match-command . font-lock-keyword-face)
    ("`[^`;]*`?" 0 font-lock-string-face t)
    ("\\_<[A-Z0-9_]+_TAC\\_>" . font-lock-function-name-face)
    (,(regexp-opt holp-combinators 'symbols) . font-lock-builtin-face)
    ("=[ \t\n]*\\([A-Z][A-Z0-9_]*\\)\\_>" 1 font-lock-function-name-face)
    ("\\_<BETA_CONV\\_>" . font-lock-function-name-face)))

(defvar holp-syntax-table
  (let ((table (make-syntax-table)))
    (modify-syntax-entry ?_ "_" table)
    (modify-syntax-entry ?' "_" table)
    (modify-syntax-entry ?` "." table)
    (modify-syntax-entry ?\" "." table)
    (modify-syntax-entry ?\\ "." table)
    table))

;; ---- commands of a buffer

(defun holp-end-of-command (&optional from)
  "The position behind the `;;' that ends the command at FROM, or nil."
  (save-excursion
    (goto-char (or from (point)))
    (when (re-search-forward ";;" nil t) (point))))

(defun holp-begin-of-command (&optional from)
  "The position behind the `;;' before FROM."
  (save-excursion
    (goto-char (or from (point)))
    (if (re-search-backward ";;" nil t) (+ (point) 2) (point-min))))

(defun holp-end-at-cursor ()
  "The position where the command at the cursor ends.
Behind a command, white space counts as part of it."
  (save-excursion
    (if (looking-at-p "[ \t\n]\\|\\'")
        (skip-chars-backward " \t\n")
      (when (and (eq (char-after) ?\;) (eq (char-before) ?\;)) (forward-char)))
    (if (looking-back ";;" (max (point-min) (- (point) 2)))
        (point)
      (or (holp-end-of-command) (point-max)))))

(defun holp-indent-line ()
  "Indent a line.
A command begins in the first column, its second line two further, and each
other line as the one before."
  (interactive)
  (let ((column (if (holp-begins-command-p (line-beginning-position))
                    0
                  (save-excursion
                    (beginning-of-line)
                    (skip-chars-backward " \t\n")
                    (max 2 (current-indentation))))))
    (if (<= (current-column) (current-indentation))
        (indent-line-to column)
      (save-excursion (indent-line-to column)))))

;; ---- runs

(defvar-local holp-records nil "What the last run told, a record for each command of the buffer.")
(defvar-local holp-before nil "The records of refused commands of `holp-scripts' in the last run.")
(defvar-local holp-reach nil "The position up to which the last run went.")

(defun holp-run-text (text)
  "The records of a run of TEXT behind `holp-scripts'."
  (unless (executable-find holp-program)
    (user-error "There is no program `%s'; `holp-program' names it" holp-program))
  (let ((words (append (list "run" "--json") (mapcar #'expand-file-name holp-scripts) (list "-")))
        (coding-system-for-write 'utf-8-unix)
        (coding-system-for-read 'utf-8-unix))
    (with-temp-buffer
      (insert text)
      (let ((status (apply #'call-process-region (point-min) (point-max) holp-program t t nil words)))
        (unless (member status '(0 1))
          (user-error "holp: %s" (string-trim (buffer-string))))
        (goto-char (point-min))
        (let (records)
          (while (not (eobp))
            (let ((line (buffer-substring-no-properties (line-beginning-position) (line-end-position))))
              (when (string-prefix-p "{" line)
                (push (json-parse-string line :object-type 'alist :array-type 'list :null-object 'null) records)))
            (forward-line))
          (nreverse records))))))

(defun holp-refusal (record)
  "The refusal of a RECORD, or nil."
  (let ((refusal (alist-get 'refusal record)))
    (unless (eq refusal 'null) refusal)))

(defun holp-goals (record)
  "The open goals of a RECORD, `null' if it is about none."
  (alist-get 'goals record))

(defun holp-position (place &optional line)
  "The position of a PLACE of the buffer.
It is counted from point, which is on LINE, or from the first line."
  (save-excursion
    (unless line (goto-char (point-min)))
    (forward-line (- (alist-get 'line place) (or line 1)))
    (min (point-max) (+ (point) (1- (alist-get 'column place))))))

(defun holp-mark (records)
  "Mark the commands of RECORDS in the buffer."
  (save-excursion
    (goto-char (point-min))
    (let ((line 1))
      (dolist (record records)
        (let* ((begin (alist-get 'begin record))
               (refusal (holp-refusal record))
               (overlay (make-overlay (holp-position begin line) (holp-position (alist-get 'end record) line))))
          (overlay-put overlay 'holp t)
          (overlay-put overlay 'face (if refusal 'holp-refused 'holp-done))
          (overlay-put overlay 'help-echo (if refusal (alist-get 'message refusal) (alist-get 'text record)))
          (forward-line (- (alist-get 'line begin) line))
          (setq line (alist-get 'line begin)))))))

(defun holp-goal-lines (goal)
  "The text of a GOAL: numbered assumptions, a line, the conclusion."
  (let ((number -1))
    (concat
     (mapconcat (lambda (assumption) (format "%3d [`%s`]\n" (setq number (1+ number)) assumption))
                (alist-get 'assumptions goal) "")
     (if (alist-get 'assumptions goal) (concat (make-string 40 ?-) "\n") "")
     (format "`%s`\n" (alist-get 'conclusion goal)))))

(defun holp-record-lines (records)
  "What the window shows of RECORDS.
It is what the last one tells, and the goals that are open behind it."
  (let* ((record (car (last records)))
         (refusal (holp-refusal record))
         (proof (seq-find (lambda (record) (not (eq (holp-goals record) 'null))) (reverse records)))
         (told (cond ((null record) "There is no command.")
                     (refusal (string-trim-right (alist-get 'message refusal)))
                     ((consp (holp-goals record)) nil)
                     ((string-empty-p (alist-get 'text record)) "accepted")
                     (t (string-trim-right (alist-get 'text record)))))
         (open (when (and proof (holp-goals proof))
                 (concat (car (split-string (alist-get 'text proof) "\n")) "\n\n"
                         (mapconcat #'holp-goal-lines (holp-goals proof) "\n")))))
    (concat (string-trim-right (string-join (delq nil (list told open)) "\n\n")) "\n")))

(defun holp-show-goals ()
  "Show what the last command of the last run came to, in a window of its own."
  (interactive)
  (let ((text (holp-record-lines holp-records)))
    (with-current-buffer (get-buffer-create "*holp goals*")
      (let ((inhibit-read-only t))
        (erase-buffer)
        (insert text)
        (goto-char (point-min)))
      (special-mode)
      (visual-line-mode))
    (let ((window (display-buffer "*holp goals*")))
      (when window (set-window-point window (with-current-buffer "*holp goals*" (point-min)))))))

(defun holp-run-to (end)
  "Run the buffer up to END, mark its commands, and show the goals."
  (let* ((all (holp-run-text (buffer-substring-no-properties (point-min) end)))
         (own-p (lambda (record) (equal (alist-get 'file record) "-")))
         (own (seq-filter own-p all)))
    (remove-overlays (point-min) (point-max) 'holp t)
    (setq holp-records own
          holp-before (seq-filter #'holp-refusal (seq-remove own-p all))
          holp-reach end)
    (holp-mark own)
    (holp-show-goals)
    (message "%d commands, %d refused%s" (length own) (seq-count #'holp-refusal own)
             (if holp-before (format ", and %d in the scripts before, at %s:%d" (length holp-before)
                                     (alist-get 'file (car holp-before))
                                     (alist-get 'line (holp-refusal (car holp-before))))
               ""))))

(defun holp-forget (begin _end _length)
  "Take the marks away from the command at BEGIN on, which a change makes stale."
  (save-match-data
    (let ((from (holp-begin-of-command begin)))
      (remove-overlays from (point-max) 'holp t)
      (when holp-reach (setq holp-reach (min holp-reach from))))))

(defun holp-run-to-cursor ()
  "Run the buffer up to the command at the cursor."
  (interactive)
  (holp-run-to (holp-end-at-cursor)))

(defun holp-run-next ()
  "Run one command more."
  (interactive)
  (let ((end (holp-end-of-command (or holp-reach (point-min)))))
    (unless end (user-error "There is no further command"))
    (holp-run-to end)
    (goto-char end)))

(defun holp-run-previous ()
  "Run one command less."
  (interactive)
  (let ((end (holp-begin-of-command (max (point-min) (- (or holp-reach (point-min)) 2)))))
    (holp-run-to end)
    (goto-char end)))

(defun holp-run-buffer ()
  "Run the whole buffer."
  (interactive)
  (holp-run-to (point-max)))

(defun holp-next-refusal ()
  "Run the whole buffer, and go to the next refusal behind the cursor.
The window shows it with the goals before it."
  (interactive)
  (holp-run-buffer)
  (let* ((refused (seq-filter #'holp-refusal holp-records))
         (next (or (seq-find (lambda (record) (> (holp-position (holp-refusal record)) (point))) refused) (car refused))))
    (when next
      (goto-char (holp-position (holp-refusal next)))
      (setq holp-records (seq-take holp-records (1+ (seq-position holp-records next #'eq)))
            holp-reach (holp-position (alist-get 'end next)))
      (holp-show-goals)
      (message "refusal %d of %d" (1+ (seq-position refused next #'eq)) (length refused)))))

(defvar holp-mode-map
  (let ((map (make-sparse-keymap)))
    (define-key map (kbd "C-c C-<return>") #'holp-run-to-cursor)
    (define-key map (kbd "C-c C-m") #'holp-run-to-cursor)
    (define-key map (kbd "C-c C-n") #'holp-run-next)
    (define-key map (kbd "C-c C-p") #'holp-run-previous)
    (define-key map (kbd "C-c C-b") #'holp-run-buffer)
    (define-key map (kbd "C-c C-e") #'holp-next-refusal)
    (define-key map (kbd "C-c C-s") #'holp-show-goals)
    map))

;;;###autoload
(define-derived-mode holp-mode prog-mode "holp"
  "Proof scripts of holp."
  :syntax-table holp-syntax-table
  (setq-local font-lock-defaults '(holp-font-lock))
  (setq-local font-lock-multiline t)
  (setq-local indent-line-function #'holp-indent-line)
  (setq-local electric-indent-inhibit t)
  (add-hook 'after-change-functions #'holp-forget nil t)
  (setq-local comment-start nil))

;;;###autoload
(add-to-list 'auto-mode-alist '("\\.hol\\'" . holp-mode))

(provide 'holp)
;;; holp.el ends here
