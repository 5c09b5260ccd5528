" Programs (*.tvp), structures (*.tvs), reports and traces, and source programs (*.src) of tvla. The last three are told by what they hold.
autocmd BufNewFile,BufRead *.tvp setfiletype tvp
autocmd BufNewFile,BufRead *.tvs setfiletype tvs
autocmd BufRead report,joined,*.report if getline(1) =~# '^tvla report ' | setfiletype tvs | endif
autocmd BufRead *.trace if match(getline(1, 50), '^\s*step\s\+\d') >= 0 | setfiletype tvs | endif
autocmd BufRead *.src if match(getline(1, 50), '^\s*vars\s*{') >= 0 | setfiletype tvlasrc | endif
