# Sessions, windows, panes, options and buffers, of which some go again.
tmux() { command tmux -L measure "$@" > /dev/null 2>&1; }
for i in $(seq 12); do
    tmux new-session -d -s "s$i" -x 100 -y 30 'sleep 60'
    for j in 1 2 3; do
        tmux new-window -d -t "s$i" -n "w$j" 'sleep 60'
        tmux split-window -d -t "s$i:w$j" 'sleep 60'
    done
done
for i in $(seq 12); do
    tmux kill-window -t "s$i:w2"
    tmux rename-window -t "s$i:w1" "renamed$i"
    tmux set-option -t "s$i" status-left "#[fg=red]#{session_name} #(date)"
    tmux set-environment -t "s$i" "NAME$i" "value$i"
    tmux set-buffer -b "b$i" "text $i"
    tmux bind-key -T prefix "F$i" if-shell true "display-message $i"
    tmux display-message -p -t "s$i" '#{window_name} #{?pane_active,a,b} #{=10:session_name}'
    tmux list-windows -a
    tmux send-keys -t "s$i:w1" 'echo hi' Enter
done
for i in 1 2 3 4; do
    tmux kill-session -t "s$i"
    tmux delete-buffer -b "b$i"
    tmux unbind-key -T prefix "F$i"
done
