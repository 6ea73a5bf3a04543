# Man pages and completions.
section man pages and completions
python3 -B "$kit/tests/pages_test.py" 2> pages_test.said
status=$?
verdict "the pages: $(tail -n 3 pages_test.said | head -n 1)" 0 $status
if command -v groff > /dev/null; then
    verdict 'groff has no warning' '' \
        "$(for page in "$kit"/man/*.1; do groff -man -Tutf8 -ww "$page" 2>&1 > /dev/null; done)"
else
    leave_out 'man pages by groff, which is missing'
fi
python3 -B "$kit/tests/completion_test.py" 2> completion_test.said
status=$?
verdict "completions: $(tail -n 3 completion_test.said | head -n 1)" 0 $status
verdict 'pages, completions and leak_find have the options of the table' '' \
    "$(python3 -B "$kit/../setup/options.py" --check "$finder")"
verdict 'bash reads its completion' \
    'complete -F _leak_complete leak_find' \
    "$(bash -c '. "$0" && complete -p leak_find' "$kit/completion/leak_find.bash" 2>&1)"
if command -v zsh > /dev/null; then
    verdict 'zsh reads its completion' '' "$(zsh -n "$kit/completion/_leak_find" 2>&1)"
else
    leave_out "zsh's completion by zsh, which is missing"
fi
