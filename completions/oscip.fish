# Completes the words of oscip in fish: its commands with what they do, their options, and files.
complete -c oscip -f
complete -c oscip -n __fish_use_subcommand -l version
complete -c oscip -n __fish_use_subcommand -a help
complete -c oscip -l help
complete -c oscip -n '__fish_seen_subcommand_from help' -a 'cut check crossings net why rules cut-net check-net why-net modules reach reach-net dot dot-net def refs symbol symbols index unresolved faults'
complete -c oscip -n __fish_use_subcommand -a cut -d 'Find the cheapest imports of Oberon-07 modules to remove so that A no longer reaches B'
complete -c oscip -n __fish_use_subcommand -a check -d 'Check a report\'s proof that its cut of Oberon-07 modules is cheapest'
complete -c oscip -n __fish_use_subcommand -a crossings -d 'Print where an Oberon-07 module uses another: what to rewrite to remove that import'
complete -c oscip -n __fish_use_subcommand -a net -d 'Print which Oberon-07 module imports which, and by how many uses, as a network'
complete -c oscip -n __fish_use_subcommand -a why -d 'Print why an Oberon-07 module reaches another: the shortest path of imports'
complete -c oscip -n __fish_use_subcommand -a rules -d 'Check Oberon-07 modules against rules that say which may not import which'
complete -c oscip -n __fish_use_subcommand -a cut-net -d 'Find the cheapest imports of a network to remove so that A no longer reaches B'
complete -c oscip -n __fish_use_subcommand -a check-net -d 'Check a report\'s proof that its cut of a network is cheapest'
complete -c oscip -n __fish_use_subcommand -a why-net -d 'Print why a module of a network reaches another: the shortest path of imports'
complete -c oscip -n __fish_use_subcommand -a modules -d 'List Oberon-07 modules and the imported ones without a file'
complete -c oscip -n __fish_use_subcommand -a reach -d 'List the Oberon-07 modules that a module reaches by one or more imports'
complete -c oscip -n __fish_use_subcommand -a reach-net -d 'List the modules of a network that a module reaches by one or more imports'
complete -c oscip -n __fish_use_subcommand -a dot -d 'Draw a report on Oberon-07 modules, in the language DOT of Graphviz'
complete -c oscip -n __fish_use_subcommand -a dot-net -d 'Draw a report on a network, in the language DOT of Graphviz'
complete -c oscip -n __fish_use_subcommand -a def -d 'Print where the symbol at a position is defined, by an index in the SCIP format'
complete -c oscip -n __fish_use_subcommand -a refs -d 'Print where the symbol at a position is used and not defined, by such an index'
complete -c oscip -n __fish_use_subcommand -a symbol -d 'Print the text of the symbol at a position, by an index in the SCIP format'
complete -c oscip -n __fish_use_subcommand -a symbols -d 'List which symbols are defined where, by an index in the SCIP format'
complete -c oscip -n __fish_use_subcommand -a index -d 'Write an index of Oberon-07 modules in the SCIP format, for code browsers'
complete -c oscip -n __fish_use_subcommand -a unresolved -d 'List identifiers of Oberon-07 modules that are not declared, imported or predeclared'
complete -c oscip -n __fish_use_subcommand -a faults -d 'List files of a folder that have faults, each with its first one'
complete -c oscip -n '__fish_seen_subcommand_from cut' -F
complete -c oscip -n '__fish_seen_subcommand_from cut' -l workers -x
complete -c oscip -n '__fish_seen_subcommand_from cut' -l prices -r -F
complete -c oscip -n '__fish_seen_subcommand_from cut' -l exclude -x
complete -c oscip -n '__fish_seen_subcommand_from cut' -l editor
complete -c oscip -n '__fish_seen_subcommand_from cut' -l skip-faults
complete -c oscip -n '__fish_seen_subcommand_from check' -F
complete -c oscip -n '__fish_seen_subcommand_from check' -l prices -r -F
complete -c oscip -n '__fish_seen_subcommand_from check' -l exclude -x
complete -c oscip -n '__fish_seen_subcommand_from check' -l editor
complete -c oscip -n '__fish_seen_subcommand_from check' -l skip-faults
complete -c oscip -n '__fish_seen_subcommand_from crossings' -F
complete -c oscip -n '__fish_seen_subcommand_from crossings' -l exclude -x
complete -c oscip -n '__fish_seen_subcommand_from crossings' -l editor
complete -c oscip -n '__fish_seen_subcommand_from crossings' -l skip-faults
complete -c oscip -n '__fish_seen_subcommand_from net' -F
complete -c oscip -n '__fish_seen_subcommand_from net' -l exclude -x
complete -c oscip -n '__fish_seen_subcommand_from net' -l editor
complete -c oscip -n '__fish_seen_subcommand_from net' -l skip-faults
complete -c oscip -n '__fish_seen_subcommand_from why' -F
complete -c oscip -n '__fish_seen_subcommand_from why' -l exclude -x
complete -c oscip -n '__fish_seen_subcommand_from why' -l editor
complete -c oscip -n '__fish_seen_subcommand_from why' -l skip-faults
complete -c oscip -n '__fish_seen_subcommand_from rules' -F
complete -c oscip -n '__fish_seen_subcommand_from rules' -l exclude -x
complete -c oscip -n '__fish_seen_subcommand_from rules' -l editor
complete -c oscip -n '__fish_seen_subcommand_from rules' -l skip-faults
complete -c oscip -n '__fish_seen_subcommand_from cut-net' -F
complete -c oscip -n '__fish_seen_subcommand_from cut-net' -l workers -x
complete -c oscip -n '__fish_seen_subcommand_from cut-net' -l prices -r -F
complete -c oscip -n '__fish_seen_subcommand_from check-net' -F
complete -c oscip -n '__fish_seen_subcommand_from check-net' -l prices -r -F
complete -c oscip -n '__fish_seen_subcommand_from why-net' -F
complete -c oscip -n '__fish_seen_subcommand_from modules' -F
complete -c oscip -n '__fish_seen_subcommand_from modules' -l exclude -x
complete -c oscip -n '__fish_seen_subcommand_from modules' -l editor
complete -c oscip -n '__fish_seen_subcommand_from modules' -l skip-faults
complete -c oscip -n '__fish_seen_subcommand_from reach' -F
complete -c oscip -n '__fish_seen_subcommand_from reach' -l back
complete -c oscip -n '__fish_seen_subcommand_from reach' -l exclude -x
complete -c oscip -n '__fish_seen_subcommand_from reach' -l editor
complete -c oscip -n '__fish_seen_subcommand_from reach' -l skip-faults
complete -c oscip -n '__fish_seen_subcommand_from reach-net' -F
complete -c oscip -n '__fish_seen_subcommand_from reach-net' -l back
complete -c oscip -n '__fish_seen_subcommand_from dot' -F
complete -c oscip -n '__fish_seen_subcommand_from dot' -l flow
complete -c oscip -n '__fish_seen_subcommand_from dot' -l prices -r -F
complete -c oscip -n '__fish_seen_subcommand_from dot' -l exclude -x
complete -c oscip -n '__fish_seen_subcommand_from dot' -l editor
complete -c oscip -n '__fish_seen_subcommand_from dot' -l skip-faults
complete -c oscip -n '__fish_seen_subcommand_from dot-net' -F
complete -c oscip -n '__fish_seen_subcommand_from dot-net' -l flow
complete -c oscip -n '__fish_seen_subcommand_from dot-net' -l prices -r -F
complete -c oscip -n '__fish_seen_subcommand_from def' -F
complete -c oscip -n '__fish_seen_subcommand_from def' -l symbol -x
complete -c oscip -n '__fish_seen_subcommand_from def' -l editor
complete -c oscip -n '__fish_seen_subcommand_from refs' -F
complete -c oscip -n '__fish_seen_subcommand_from refs' -l symbol -x
complete -c oscip -n '__fish_seen_subcommand_from refs' -l editor
complete -c oscip -n '__fish_seen_subcommand_from symbol' -F
complete -c oscip -n '__fish_seen_subcommand_from symbol' -l editor
complete -c oscip -n '__fish_seen_subcommand_from symbols' -F
complete -c oscip -n '__fish_seen_subcommand_from symbols' -l editor
complete -c oscip -n '__fish_seen_subcommand_from index' -F
complete -c oscip -n '__fish_seen_subcommand_from index' -l hex
complete -c oscip -n '__fish_seen_subcommand_from index' -l package -x
complete -c oscip -n '__fish_seen_subcommand_from index' -l root -x
complete -c oscip -n '__fish_seen_subcommand_from index' -l workers -x
complete -c oscip -n '__fish_seen_subcommand_from index' -l atomic
complete -c oscip -n '__fish_seen_subcommand_from index' -l exclude -x
complete -c oscip -n '__fish_seen_subcommand_from index' -l editor
complete -c oscip -n '__fish_seen_subcommand_from index' -l skip-faults
complete -c oscip -n '__fish_seen_subcommand_from unresolved' -F
complete -c oscip -n '__fish_seen_subcommand_from unresolved' -l exclude -x
complete -c oscip -n '__fish_seen_subcommand_from unresolved' -l editor
complete -c oscip -n '__fish_seen_subcommand_from unresolved' -l skip-faults
complete -c oscip -n '__fish_seen_subcommand_from faults' -F
complete -c oscip -n '__fish_seen_subcommand_from faults' -l exclude -x
complete -c oscip -n '__fish_seen_subcommand_from faults' -l editor
