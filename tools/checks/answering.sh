#!/bin/sh
# Answers as the program does, for trials of tools: it reports the rows of the file `listed`, and answers a task by the file of its
# words in the folder `answers`. What it is asked stands in `asked`. If there is a file `refused`, it refuses archives and settings.
case $1 in
    report)
        [ ! -e refused ] || { echo 'damaged at 352'; exit 11; }
        awk -v first="$4" -v last="$5" '$2 >= first && $2 <= last' listed
        ;;
    task)
        address=$2
        shift 2
        echo "$address $*" >>asked
        case $* in 'time set '*) set -- time set ;; esac
        answer=$(cat "answers/$*" 2>/dev/null) || answer='link fault'
        echo "$answer"
        case $answer in 'link fault') exit 6 ;; 'task '*) exit 4 ;; flood) exit 13 ;; esac
        ;;
    pages) [ ! -e refused ] || { echo 'settings bad period'; exit 2; } ;;
esac
