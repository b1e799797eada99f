# Completion of fish for pokit.

# __pokit_tool WORD..: whether the tool is one of these, where "" is that none is named yet.
function __pokit_tool
    set -l words (commandline -opc)
    contains -- "$words[2]" $argv
end

complete -c pokit -f
complete -c pokit -n '__pokit_tool "" help' -a msgfmt -d 'compile PO texts to one MO file'
complete -c pokit -n '__pokit_tool "" help' -a msgunfmt -d 'write an MO file as a PO text'
complete -c pokit -n '__pokit_tool "" help' -a msgattrib -d 'select and change the entries of a PO text'
complete -c pokit -n '__pokit_tool "" help' -a msgcat -d 'merge PO texts'
complete -c pokit -n '__pokit_tool "" help' -a gettext -d 'print the translation of a message'
complete -c pokit -n '__pokit_tool "" help' -a ngettext -d 'print the translation of a message with a count'
complete -c pokit -n '__pokit_tool "" help' -a envsubst -d 'put the values of variables into standard input'
complete -c pokit -n '__pokit_tool ""' -a help -d 'print the options of a tool'
complete -c pokit -n 'not __pokit_tool help' -s h -l help -d 'print help'

complete -c pokit -n '__pokit_tool msgfmt msgattrib msgcat' -k -a '(__fish_complete_suffix .po)'
complete -c pokit -n '__pokit_tool msgunfmt' -k -a '(__fish_complete_suffix .mo)'
complete -c pokit -n '__pokit_tool msgfmt msgunfmt msgattrib msgcat' -s o -l output-file -r -F -d 'write to a file; - is standard output'
complete -c pokit -n '__pokit_tool msgunfmt msgattrib msgcat' -l no-wrap -d 'accepted for compatibility'

complete -c pokit -n '__pokit_tool msgfmt' -s f -l use-fuzzy -d 'compile fuzzy entries too'
complete -c pokit -n '__pokit_tool msgfmt' -l statistics -d 'count the messages on standard error'
complete -c pokit -n '__pokit_tool msgfmt' -l endianness -x -a 'little big' -d 'byte order of the MO file'
complete -c pokit -n '__pokit_tool msgfmt' -l no-hash -d 'accepted for compatibility'
complete -c pokit -n '__pokit_tool msgfmt' -l profile-check -d 'refuse plural forms and newlines that do not fit'

complete -c pokit -n '__pokit_tool msgattrib' -l translated -d 'keep translated messages'
complete -c pokit -n '__pokit_tool msgattrib' -l untranslated -d 'keep untranslated messages'
complete -c pokit -n '__pokit_tool msgattrib' -l no-fuzzy -d 'keep messages that are not fuzzy'
complete -c pokit -n '__pokit_tool msgattrib' -l only-fuzzy -d 'keep fuzzy messages'
complete -c pokit -n '__pokit_tool msgattrib' -l no-obsolete -d 'keep messages that are not obsolete'
complete -c pokit -n '__pokit_tool msgattrib' -l only-obsolete -d 'keep obsolete messages'
complete -c pokit -n '__pokit_tool msgattrib' -l set-fuzzy -d 'make all messages fuzzy'
complete -c pokit -n '__pokit_tool msgattrib' -l clear-fuzzy -d 'make all messages not fuzzy'
complete -c pokit -n '__pokit_tool msgattrib' -l set-obsolete -d 'make all messages obsolete'
complete -c pokit -n '__pokit_tool msgattrib' -l clear-obsolete -d 'make all messages not obsolete'
complete -c pokit -n '__pokit_tool msgattrib' -l clear-previous -d 'drop the previous texts'
complete -c pokit -n '__pokit_tool msgattrib' -l empty -d 'with --clear-fuzzy, empty translations that were fuzzy'
complete -c pokit -n '__pokit_tool msgattrib' -l fuzzy -d 'the same as --only-fuzzy --clear-fuzzy'
complete -c pokit -n '__pokit_tool msgattrib' -l obsolete -d 'the same as --only-obsolete --clear-obsolete'

complete -c pokit -n '__pokit_tool msgcat' -l more-than -x -d 'keep messages with more definitions than this'
complete -c pokit -n '__pokit_tool msgcat' -l less-than -x -d 'keep messages with fewer definitions than this'
complete -c pokit -n '__pokit_tool msgcat' -s u -l unique -d 'the same as --less-than 2'
complete -c pokit -n '__pokit_tool msgcat' -l use-first -d 'take the first translation'

complete -c pokit -n '__pokit_tool gettext ngettext' -s d -l domain -x -d 'the text domain'
complete -c pokit -n '__pokit_tool gettext ngettext' -s c -l context -x -d 'the context of the message'
complete -c pokit -n '__pokit_tool gettext ngettext' -s e -d 'expand escapes in the arguments'
complete -c pokit -n '__pokit_tool gettext ngettext' -s E -d 'accepted for compatibility'
complete -c pokit -n '__pokit_tool gettext' -s n -d 'with -s, end without a newline'
complete -c pokit -n '__pokit_tool gettext' -s s -d 'translate all arguments, and end with a newline'

complete -c pokit -n '__pokit_tool envsubst' -s v -l variables -d 'print the names of the variables in the format'
