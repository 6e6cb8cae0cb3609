//! What shells need to complete the words of a command line, made of the table of options.

use crate::args::Shell;
use crate::options::{Command, Opt, Value, COMMANDS};

/// The text that a shell reads.
pub fn script(shell: Shell) -> String {
    match shell {
        Shell::Bash => bash(),
        Shell::Zsh => format!("#compdef linenhatch\nautoload -U +X bashcompinit && bashcompinit\n{}", bash()),
        Shell::Fish => fish(),
    }
}

fn names(options: impl Iterator<Item = &'static Opt>) -> String {
    let mut names: Vec<&str> = options.flat_map(|(names, ..)| names.iter().copied()).collect();
    names.sort_unstable();
    names.dedup();
    names.join(" ")
}

/// The names of all options that take such a value, as a shell's pattern.
fn taking(is_meant: impl Fn(Value) -> bool) -> String {
    let options = COMMANDS.iter().flat_map(Command::options).filter(|(_, value, _)| is_meant(*value));
    names(options).replace(' ', "|")
}

fn bash() -> String {
    let commands = COMMANDS.iter().map(|command| command.name).collect::<Vec<_>>().join(" ");
    let mut words = Vec::new();
    for command in COMMANDS.iter().flat_map(Command::options) {
        if let (names, Value::Of(choices), _) = command {
            words.push(format!(
                "        {}) COMPREPLY=($(compgen -W \"{}\" -- \"$cur\")); return ;;\n",
                names.join("|"),
                choices.join(" ")
            ));
        }
    }
    words.sort();
    words.dedup();
    let options: String =
        COMMANDS.iter().map(|command| format!("        {}) options=\"{}\" ;;\n", command.name, names(command.options()))).collect();
    let no_revs: Vec<&str> = COMMANDS.iter().filter(|command| !command.revs).map(|command| command.name).collect();
    format!(
        "# Completes the words of linenhatch in bash: source <(linenhatch completion bash)\n\
         _linenhatch() {{\n\
         \x20   local cur=${{COMP_WORDS[COMP_CWORD]}} prev=${{COMP_WORDS[COMP_CWORD-1]}} command= dir=. options= i word\n\
         \x20   COMPREPLY=()\n\
         \x20   for ((i = 1; i < COMP_CWORD; i++)); do\n\
         \x20       word=${{COMP_WORDS[i]}}\n\
         \x20       if [[ $word == -C ]]; then dir=${{COMP_WORDS[++i]}}\n\
         \x20       elif [[ $word == --progress ]]; then :\n\
         \x20       elif [[ -z $command ]]; then command=$word\n\
         \x20       fi\n\
         \x20   done\n\
         \x20   case $prev in\n\
         \x20       {}) COMPREPLY=($(compgen -d -- \"$cur\")); return ;;\n\
         \x20       {}) COMPREPLY=($(compgen -f -- \"$cur\")); return ;;\n\
         {}\
         \x20       {}) return ;;\n\
         \x20   esac\n\
         \x20   case $command in\n\
         {options}\
         \x20       *) options=\"{}\" ;;\n\
         \x20   esac\n\
         \x20   if [[ $cur == -* ]]; then COMPREPLY=($(compgen -W \"$options\" -- \"$cur\")); return; fi\n\
         \x20   case $command in\n\
         \x20       completion) COMPREPLY=($(compgen -W \"bash zsh fish\" -- \"$cur\")); return ;;\n\
         \x20       write-graph) COMPREPLY=($(compgen -d -- \"$cur\")); return ;;\n\
         \x20       {}) return ;;\n\
         \x20   esac\n\
         \x20   local names=$(git -C \"$dir\" for-each-ref --format='%(refname:short)' 2>/dev/null)\n\
         \x20   local lead=\n\
         \x20   if [[ $cur == ^* ]]; then lead=^ cur=${{cur#^}}\n\
         \x20   elif [[ $cur == *..* ]]; then lead=${{cur%%..*}}.. cur=${{cur#*..}}\n\
         \x20   fi\n\
         \x20   [[ -z $command && -z $lead ]] && names=\"{commands} $names\"\n\
         \x20   COMPREPLY=($(compgen -P \"$lead\" -W \"HEAD $names\" -- \"$cur\"))\n\
         }}\n\
         complete -F _linenhatch linenhatch\n",
        taking(|value| value == Value::Folder),
        taking(|value| value == Value::File),
        words.concat(),
        taking(|value| matches!(value, Value::Text(_))),
        names(COMMANDS[0].options()),
        no_revs.join("|"),
    )
}

fn fish() -> String {
    let commands = COMMANDS.iter().map(|command| command.name).collect::<Vec<_>>().join(" ");
    let mut text = format!(
        "# Completes the words of linenhatch in fish.\n\
         complete -c linenhatch -f\n\
         complete -c linenhatch -a '(git for-each-ref --format=\"%(refname:short)\" 2>/dev/null)'\n\
         set -l commands {commands}\n"
    );
    for command in COMMANDS {
        text += &format!(
            "complete -c linenhatch -n \"not __fish_seen_subcommand_from $commands\" -a {} -d '{}'\n",
            command.name,
            quoted(command.what)
        );
    }
    for command in COMMANDS {
        let when = match command.name {
            "list" => "not __fish_seen_subcommand_from $commands; or __fish_seen_subcommand_from list".into(),
            name => format!("__fish_seen_subcommand_from {name}"),
        };
        for (names, value, what) in command.options() {
            let words: String = names.iter().map(|name| fish_name(name)).collect();
            let value = match value {
                Value::None => String::new(),
                Value::Folder => " -x -a '(__fish_complete_directories)'".into(),
                Value::File => " -r -F".into(),
                Value::Rev => " -x -a '(git for-each-ref --format=\"%(refname:short)\" 2>/dev/null)'".into(),
                Value::Of(choices) => format!(" -x -a '{}'", choices.join(" ")),
                Value::Text(_) => " -x".into(),
            };
            text += &format!("complete -c linenhatch -n \"{when}\"{words}{value} -d '{}'\n", quoted(what));
        }
    }
    text + "complete -c linenhatch -n \"__fish_seen_subcommand_from completion\" -a 'bash zsh fish'\n"
}

fn fish_name(name: &str) -> String {
    match name.strip_prefix("--") {
        Some(long) => format!(" -l {long}"),
        None => format!(" -s {}", &name[1..]),
    }
}

fn quoted(text: &str) -> String {
    text.replace('\'', "\\'")
}
