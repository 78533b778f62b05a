#!/usr/bin/env python3
"""What real editors show of diagnostics: bench/editor_diagnostics.py PROGRAM

Neovim (by its own client) and Emacs (by eglot) open a file with an unmatched bracket, mend it, give two functions one name,
and rename one. Each has to show just what is wrong each time. An editor that isn't there is told and passed over; with none
the status is 2."""
import os, pathlib, shutil, subprocess, sys, tempfile

TEXTS = [("opened", "fn a() {\n", "unmatched bracket"), ("mended", "fn a() {}\n", ""),
         ("named twice", "fn a() {}\nfn a() {}\n", "duplicate name a"), ("renamed", "fn a() {}\nfn b() {}\n", "")]

NEOVIM = """
local id = vim.lsp.start_client({cmd = {os.getenv('PROGRAM'), 'lsp'}, root_dir = vim.fn.getcwd()})
local function tell(wanted)
  vim.wait(5000, function() return #vim.diagnostic.get(0) == wanted end, 20)
  local texts = {}
  for _, shown in ipairs(vim.diagnostic.get(0)) do table.insert(texts, shown.message) end
  io.stdout:write('shown: ' .. table.concat(texts, '; ') .. '\\n')
end
vim.cmd('edit a.rs')
vim.lsp.buf_attach_client(0, id)
tell(1)
for at, text in ipairs({%s}) do
  vim.api.nvim_buf_set_lines(0, 0, -1, false, vim.split(text, '\\n', {trimempty = true}))
  tell(at == 2 and 1 or 0)
end
vim.cmd('qa!')
"""

EMACS = """
(require 'package) (package-initialize) (require 'eglot) (require 'flymake)
(define-derived-mode tried-mode prog-mode "tried")
(add-to-list 'eglot-server-programs (list 'tried-mode (getenv "PROGRAM") "lsp"))
(setq eglot-sync-connect 10 eglot-autoshutdown nil)
(defun tell-shown (wanted)
  (let ((round 0))
    (while (and (< round 100) (/= wanted (length (flymake-diagnostics))))
      (accept-process-output nil 0.05) (sit-for 0.01) (setq round (1+ round))))
  (princ (format "shown: %%s\\n" (mapconcat #'flymake-diagnostic-text (flymake-diagnostics) "; "))))
(find-file "a.rs") (tried-mode) (call-interactively 'eglot) (flymake-mode 1) (flymake-start)
(tell-shown 1)
(let ((at 0))
  (dolist (text (list %s))
    (setq at (1+ at))
    (erase-buffer) (insert text) (eglot--signal-textDocument/didChange) (tell-shown (if (= at 2) 1 0))))
(set-buffer-modified-p nil) (kill-emacs 0)
"""

def quoted(text):
    return '"' + text.replace("\n", "\\n") + '"'

def shown_by(name, program):
    with tempfile.TemporaryDirectory() as folder:
        at = pathlib.Path(folder)
        (at / "Cargo.toml").write_text('[package]\nname = "tried"\nversion = "0.1.0"\n')
        (at / "a.rs").write_text(TEXTS[0][1])
        (at / ".git").mkdir()
        later = [quoted(text) for _, text, _ in TEXTS[1:]]
        if name == "nvim":
            (at / "try.lua").write_text(NEOVIM % ", ".join(later))
            command = ["nvim", "--headless", "-u", "NONE", "-S", "try.lua"]
        else:
            (at / "try.el").write_text(EMACS % " ".join(later))
            command = ["emacs", "--batch", "-l", "try.el"]
        done = subprocess.run(command, cwd=at, env=dict(os.environ, PROGRAM=program), capture_output=True, text=True, timeout=120)
        return [line[7:] for line in done.stdout.splitlines() if line.startswith("shown: ")]

def main(program):
    program, status, tried = os.path.abspath(program), 0, 0
    for name in ("nvim", "emacs"):
        if not shutil.which(name):
            print(f"{name}: not there")
            continue
        tried += 1
        shown = shown_by(name, program)
        for (what, _, wanted), seen in zip(TEXTS, shown + ["nothing was told"] * len(TEXTS)):
            right = seen == wanted or (wanted and seen.endswith(": " + wanted))
            status |= not right
            print(f"{name}: {what}: [{seen}]" + ("" if right else f", wanted [{wanted}]"))
    return status if tried else 2

if __name__ == "__main__":
    sys.exit(main(*sys.argv[1:]) if len(sys.argv) == 2 else __doc__)
