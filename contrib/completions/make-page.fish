# Completions of make-page for fish: install this file as PREFIX/share/fish/vendor_completions.d/make-page.fish.

complete -c make-page -s h -l help -d 'Print help'
complete -c make-page -l sheet -d 'A sheet to print in place of a page to click'
complete -c make-page -l per-page -x -d 'Problems on each page of a sheet'
complete -c make-page -l into -r -F -d 'A page for each record, and an index, into this folder'
complete -c make-page -l keep-going -d 'Leave out records that are refused'
complete -c make-page -l unaudited -d 'Show what the audit refuses too, and say so'
complete -c make-page -l judged -d 'Show what the audit refuses where a short claim of it is accepted'
complete -c make-page -l grade -d 'Show the solution for people, and the grade'
complete -c make-page -l short -x -d 'Leave out replies whose lines end within so many turns'
complete -c make-page -l depth -x -d 'Show at most so many turns of each line'
complete -c make-page -l title -x -d 'The title of the page'
