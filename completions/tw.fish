# Completion of tw for fish. It asks the script `words`, which lies beside this file or in the folder tw of the same share.
set -g __tw_words (realpath (dirname (status filename)))/words
test -f $__tw_words; or set -g __tw_words (dirname $__tw_words)/../../tw/words

function __tw_complete
    set -l before (commandline -opc)
    switch (basename $before[1])
        case task timew
            set before tw $before
    end
    sh $__tw_words (commandline -ct) $before[2..-1] 2>/dev/null
end

function __tw_wants_file
    set -l before (commandline -opc)
    switch "$before[2]"
        case server
            test (count $before) -eq 3
        case check rescue
            test (count $before) -eq 2
        case '*'
            false
    end
end

complete -c tw -f -n 'not __tw_wants_file' -a '(__tw_complete)'
complete -c tw -F -n __tw_wants_file
# If task and timew are functions of tw: complete -c task -w 'tw task'; complete -c timew -w 'tw timew'
