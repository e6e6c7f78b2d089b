autocmd BufNewFile,BufRead *.lift setfiletype lift
