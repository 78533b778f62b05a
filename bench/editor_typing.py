#!/usr/bin/env python3
"""What real editors get while they type: bench/editor_typing.py PROGRAM

Neovim (by its own client) and Emacs (by eglot) open a file and type a name of 300 letters into it, one by one. Behind each
letter they ask for a hover, and don't wait for it. Each has to be answered once: by a name that stood there, or as cancelled
or out of date. A hover behind the last has to tell the whole name. An editor that isn't there is told and passed over; with
none the status is 2."""
import os, pathlib, shutil, subprocess, sys, tempfile

LETTERS = 300

NEOVIM = """
local id = vim.lsp.start_client({cmd = {os.getenv('PROGRAM'), 'lsp'}, root_dir = vim.fn.getcwd()})
vim.cmd('edit a.rs')
vim.lsp.buf_attach_client(0, id)
local client = vim.lsp.get_client_by_id(id)
vim.wait(5000, function() return client.initialized end, 10)
local place = {textDocument = {uri = vim.uri_from_bufnr(0)}, position = {line = 0, character = 3}}
local asked, answered, wrong, longest = LETTERS, 0, 0, 0
for at = 1, asked do
  vim.api.nvim_buf_set_text(0, 0, 4, 0, 4, {'b'})
  client.request('textDocument/hover', place, function(err, result)
    answered = answered + 1
    if err then
      if err.code ~= -32800 and err.code ~= -32801 then wrong = wrong + 1 end
    elseif result == nil or not string.match(result.contents, '^ab*$') then wrong = wrong + 1
    else longest = math.max(longest, #result.contents) end
  end, 0)
  vim.wait(2)
end
vim.wait(20000, function() return answered == asked end, 10)
local last = vim.lsp.buf_request_sync(0, 'textDocument/hover', place, 5000)
local name = last and last[id] and last[id].result and last[id].result.contents or ''
io.stdout:write(string.format('told: %d asked, %d answered, %d wrong, the last of %d letters\\n', asked, answered, wrong, #name))
vim.cmd('qa!')
"""

EMACS = """
(require 'package) (package-initialize) (require 'eglot)
(define-derived-mode tried-mode prog-mode "tried")
(add-to-list 'eglot-server-programs (list 'tried-mode (getenv "PROGRAM") "lsp"))
(setq eglot-sync-connect 10 eglot-autoshutdown nil)
(find-file "a.rs") (tried-mode) (call-interactively 'eglot)
(let* ((server (eglot-current-server)) (asked LETTERS) (answered 0) (wrong 0) (name "") (round 0)
       (place (list :textDocument (eglot--TextDocumentIdentifier) :position '(:line 0 :character 3))))
  (dotimes (_ asked)
    (goto-char 5) (insert "b") (eglot--signal-textDocument/didChange)
    (jsonrpc-async-request server :textDocument/hover place
      :success-fn (lambda (result)
        (setq answered (1+ answered))
        (unless (string-match "\\\\`ab*\\\\'" (or (plist-get result :contents) "")) (setq wrong (1+ wrong))))
      :error-fn (lambda (err)
        (setq answered (1+ answered))
        (unless (member (plist-get err :code) '(-32800 -32801)) (setq wrong (1+ wrong)))))
    (accept-process-output nil 0.002))
  (while (and (< round 400) (< answered asked)) (accept-process-output nil 0.05) (setq round (1+ round)))
  (setq name (plist-get (jsonrpc-request server :textDocument/hover place) :contents))
  (princ (format "told: %d asked, %d answered, %d wrong, the last of %d letters\\n" asked answered wrong (length name))))
(set-buffer-modified-p nil) (kill-emacs 0)
"""


def told_by(name, program):
    with tempfile.TemporaryDirectory() as folder:
        at = pathlib.Path(folder)
        (at / "Cargo.toml").write_text('[package]\nname = "tried"\nversion = "0.1.0"\n')
        (at / "a.rs").write_text("fn a() {}\n")
        (at / ".git").mkdir()
        script, text = ("try.lua", NEOVIM) if name == "nvim" else ("try.el", EMACS)
        (at / script).write_text(text.replace("LETTERS", str(LETTERS)))
        command = ["nvim", "--headless", "-u", "NONE", "-S", script] if name == "nvim" else ["emacs", "--batch", "-l", script]
        done = subprocess.run(command, cwd=at, env=dict(os.environ, PROGRAM=program), capture_output=True, text=True, timeout=120)
        return next((line[6:] for line in done.stdout.splitlines() if line.startswith("told: ")), "nothing was told: " + done.stderr[-300:])


def main(program):
    program, status, tried = os.path.abspath(program), 0, 0
    wanted = f"{LETTERS} asked, {LETTERS} answered, 0 wrong, the last of {LETTERS + 1} letters"
    for name in ("nvim", "emacs"):
        if not shutil.which(name):
            print(f"{name}: not there")
            continue
        tried += 1
        told = told_by(name, program)
        status |= told != wanted
        print(f"{name}: {told}" + ("" if told == wanted else f"\n  wanted {wanted}"))
    return status if tried else 2


if __name__ == "__main__":
    sys.exit(main(*sys.argv[1:]) if len(sys.argv) == 2 else __doc__)
