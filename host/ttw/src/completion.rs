//! Completion for bash, made of the table of commands and of that of options.

use crate::arguments::{Takes, OPTIONS};
use crate::help::TOPICS;
use crate::{Command, COMMANDS};

/// The script that bash reads. A word that begins with `-` becomes an option of
/// the command, any other a verb where the command begins with one, or a file;
/// behind an option comes what it takes.
pub fn script() -> String {
    let commands: Vec<&str> = COMMANDS.iter().map(|command| command.name).collect();
    let commands = commands.join(" ");
    let topics: Vec<&str> = TOPICS.iter().map(|(topic, _)| *topic).collect();
    let topics = topics.join(" ");
    let plain = with(Takes::is_plain).join(" | ");
    let places = with(|takes| takes == Takes::Place).join(" | ");
    let options: String = COMMANDS.iter().map(options_of).collect();
    format!(
        r#"# Completion of ttw for bash, as `ttw help --bash` prints it.
_ttw() {{
    local word=${{COMP_WORDS[COMP_CWORD]}} before=${{COMP_WORDS[COMP_CWORD - 1]}} options= verbs=
    # Of --out=FILE bash makes three words.
    [ "$word" != = ] || word=
    [ "$before" != = ] || before=${{COMP_WORDS[COMP_CWORD - 2]}}
    COMPREPLY=()
    if [ "$COMP_CWORD" -eq 1 ]; then
        mapfile -t COMPREPLY < <(compgen -W '{commands} help --help --version' -- "$word")
        return
    fi
    case ${{COMP_WORDS[1]}} in
{options}    help)
        mapfile -t COMPREPLY < <(compgen -W '{commands} {topics}' -- "$word")
        return
        ;;
    *) return ;;
    esac
    if [ -n "$verbs" ] && [ "$COMP_CWORD" -eq 2 ] && [[ $word != -* ]]; then
        mapfile -t COMPREPLY < <(compgen -W "$verbs" -- "$word")
        return
    fi
    case $before in
    {plain}) return ;;
    {places}) ;;
    *)
        if [[ $word == -* ]]; then
            mapfile -t COMPREPLY < <(compgen -W "$options" -- "$word")
            return
        fi
        ;;
    esac
    mapfile -t COMPREPLY < <(compgen -f -- "$word")
}}
complete -o filenames -F _ttw ttw
"#
    )
}

/// A command with its options and its verbs, as a case of the script.
fn options_of(command: &Command) -> String {
    let always = with(|takes| takes == Takes::NothingAnywhere);
    let options = [command.options, &always].concat().join(" ");
    let verbs = match command.verbs {
        [] => String::new(),
        verbs => format!(" verbs='{}'", verbs.join(" ")),
    };
    format!("    {}) options='{options}'{verbs} ;;\n", command.name)
}

/// The options that take such a thing.
fn with(takes: impl Fn(Takes) -> bool) -> Vec<&'static str> {
    let some = OPTIONS.iter().filter(|option| takes(option.1));
    some.map(|option| option.0).collect()
}
