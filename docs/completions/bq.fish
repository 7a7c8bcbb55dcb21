# Completion of bq for fish: put this file into ~/.config/fish/completions.
complete -c bq -f
complete -c bq -l jobs -x -a '1 2 4 8 16 32 64 128 256' -d 'Number of workers that load modules, 1 to 256'
complete -c bq -l output -x -a 'label label_kind' -d 'Output format of each target'
complete -c bq -l max-steps -x -a '1000000 10000000 100000000 1000000000' -d 'Step limit for evaluating one module'
complete -c bq -l large -d 'Allow more than 65536 files and 16384 modules'
complete -c bq -l dir -x -a '(__fish_complete_directories)' -d 'Directory that holds the workspace'
complete -c bq -l bundle -r -F -d 'File that holds the workspace, as a bundle'
complete -c bq -l queries -r -F -d 'Answer the queries of a file, one a line'
complete -c bq -l facts -d 'Print JSON instead of labels'
complete -c bq -l explain -x -a 'F1 F2 F3 F4 F5 F6 F7 F8 F10 F11 F12 F13 F20 F21 F22 F23 F24 F30 F31 F32 F33 F34 F35 F36 F37 F38 F40 F41 F42 F43 F44 F45 F46 F47 F48 F49 F50 F51 F52 F53 F54 F55 F56 F57 F58 F59 F60 F70 F71 F72 F73 F74 F75 F76 F77 F78 F79 F80 Q1 Q2 Q3 Q4 Q5 Q6 Q7 Q8 E1 E2 E3 E4 E6 E7' -d 'Explain a fault or error, and exit'
complete -c bq -s h -l help -d 'Print help'
complete -c bq -s V -l version -d 'Print version'
