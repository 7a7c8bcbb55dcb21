# Completion of bzlq for fish: put this file into ~/.config/fish/completions.
# Labels come from the files on the disk and from the last answer; nothing is loaded for them.
function __bzlq_labels
    set -l word (commandline -ct | string trim -l -c '\'"')
    set -l start (string replace -r '.*[ (,+^]' '' -- $word)
    set -l head (string sub -l (math (string length -- $word) - (string length -- $start)) -- $word)
    string match -qr ':|^//|^@' -- $start
    and string replace -r '^' -- $head (bzlq --complete $start 2>/dev/null)
end
complete -c bzlq -a '(__bzlq_labels)'
complete -c bzlq -n __fish_use_subcommand -a ask -d 'answers questions one after another: a prompt on a terminal, plain lines in a pipe'
complete -c bzlq -n __fish_use_subcommand -a watch -d 'answers a query after each change of the workspace: what came, and what went'
complete -c bzlq -n __fish_use_subcommand -a query -d 'answers a query, as without a word'
complete -c bzlq -n __fish_use_subcommand -a facts -d 'facts of the targets of a query, or of all, as JSON'
complete -c bzlq -n __fish_use_subcommand -a queries -d 'answers each line of a file, or of standard input, over one load'
complete -c bzlq -n __fish_use_subcommand -a owner -d 'the targets that files are part of'
complete -c bzlq -n __fish_use_subcommand -a lint -d 'the faults of BUILD and .bzl files: of those that git says have changed, or of FILE ..'
complete -c bzlq -n __fish_use_subcommand -a bundle -d 'writes the bundle of the workspace, or of TREE [OVERLAY ..]'
complete -c bzlq -n __fish_use_subcommand -a affected -d 'the targets that a change in git concerns, tests above all'
complete -c bzlq -n __fish_use_subcommand -a why -d 'why A depends on B: a shortest path with places'
complete -c bzlq -n __fish_use_subcommand -a graph -d 'the graph of a query\'s targets'
complete -c bzlq -n __fish_use_subcommand -a users -d 'the calls of a macro, or the users of a target'
complete -c bzlq -n __fish_use_subcommand -a loads -d 'who loads a .bzl file, directly or not'
complete -c bzlq -n __fish_use_subcommand -a unused -d 'the rules that nothing depends on'
complete -c bzlq -n __fish_use_subcommand -a cycles -d 'the cycles of targets'
complete -c bzlq -n __fish_use_subcommand -a visible -d 'whether A may depend on B, and by which line; or the edges that break a visibility'
complete -c bzlq -n __fish_use_subcommand -a join -d 'joins the facts of parts of a workspace, and answers over the whole'
complete -c bzlq -n __fish_use_subcommand -a closures -d 'the targets that depend on most others'
complete -c bzlq -n __fish_use_subcommand -a shared -d 'the files that several rules have as sources'
complete -c bzlq -n __fish_use_subcommand -a diff -d 'how an answer differs between two revisions of git'
complete -c bzlq -n __fish_use_subcommand -a stubs -d 'makes a schema, and what stands in for other repositories'
complete -c bzlq -n __fish_use_subcommand -a hints -d 'says of fault lines where they are and why'
complete -c bzlq -l jobs -x -a '1 2 4 8 16 32 64 128 256' -d 'Number of workers that load modules, 1 to 256'
complete -c bzlq -l output -x -a 'label label_kind package location graph jsonl' -d 'Form of the answer'
complete -c bzlq -l max-steps -x -d 'Step limit for evaluating one module'
complete -c bzlq -l large -d 'Allow more than 65536 files and 16384 modules, which is found out otherwise'
complete -c bzlq -l facts -d 'JSON instead of labels'
complete -c bzlq -l queries -r -F -d 'Answer the queries of a file, one a line'
complete -c bzlq -l bundle-path -d 'Say which file the bundle is'
complete -c bzlq -l all -d 'List also the faults that follow from others'
complete -c bzlq -l strict -d 'Status 3 where the answer is an approximation'
complete -c bzlq -l program -r -F -d 'The program bq'
complete -c bzlq -l explain -x -d 'Explain a fault or error, and exit'
complete -c bzlq -l clean -d 'Remove what is kept of this workspace'
complete -c bzlq -l version -d 'Print the version of bq'
complete -c bzlq -s h -l help -d 'Print help'
