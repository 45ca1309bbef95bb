" Rattle (.rt) and antt (.antt). Copy docs/editor/vim to ~/.vim.
autocmd BufNewFile,BufRead *.rt setfiletype rattle
autocmd BufNewFile,BufRead *.antt setfiletype antt
autocmd BufNewFile,BufRead */must-fail/*.edit setfiletype conf
