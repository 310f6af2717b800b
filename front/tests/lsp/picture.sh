#!/usr/bin/env bash
# Draws front/neovim.png: Neovim in a terminal, with the configuration of the readme, a diagnostic and a hover.
# It needs Debian's xvfb, xterm, neovim and imagemagick, and the built front end (`cargo build`) with its program.
set -euo pipefail
cd "$(dirname "$0")/../.."
work=$(mktemp -d)
cp -r examples/market "$work/market"
sed -n '/^```lua$/,/^```$/p' README.md | sed -n '2,/^```$/p' | sed '/^```$/,$d' > "$work/init.lua"
cat >> "$work/init.lua" <<'END'
vim.opt.number = true
vim.opt.shortmess:append("I")
vim.opt.laststatus = 0
vim.cmd("highlight NormalFloat ctermbg=237 | highlight SignColumn ctermbg=NONE")
-- Neovim's own syntax of Rust takes a `crate` for an error.
vim.cmd("autocmd Syntax rust highlight clear Error")
END
export PATH=$PWD/target/debug:$PATH DISPLAY=:97 XDG_STATE_HOME=$work/state XDG_CACHE_HOME=$work/cache
Xvfb $DISPLAY -screen 0 1000x600x24 > /dev/null 2>&1 &
screen=$!
trap 'kill $screen; rm -rf "$work"' EXIT
sleep 1
(cd "$work/market/shop" && exec xterm -tn xterm-256color -fa 'DejaVu Sans Mono' -fs 10 -geometry 112x32+0+0 -bw 0 -b 6 -bg '#1c1c1c' -fg '#d0d0d0' \
  -e nvim --listen "$work/socket" -u "$work/init.lua" -i NONE -n src/report.rs) &
tell() { nvim --server "$work/socket" --remote-expr "$1" 2>&1; }
until [ "$(tell 'luaeval("#vim.diagnostic.get(0)")')" = 1 ]; do sleep 0.1; done
tell 'cursor(15, 21)' > /dev/null
tell 'luaeval("vim.lsp.buf.hover()")' > /dev/null
sleep 2
tell 'execute("highlight clear Error")' > /dev/null
sleep 1
import -window root -trim +repage -colors 64 PNG8:neovim.png
tell 'execute("qall!")' > /dev/null || true
