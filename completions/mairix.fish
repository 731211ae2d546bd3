# Completes mairix(1) in fish: options, files, and the prefixes of both query languages.

complete -c mairix -f
complete -c mairix -s f -r -F -d 'The rcfile, which names the archives and the index'
complete -c mairix -s r -d 'Print offset, length and archive of each message'
complete -c mairix -s x -d 'Print the archive and the main header lines of each message'
complete -c mairix -s t -d 'Find whole threads'
complete -c mairix -s o -r -F -d 'Write the mbox to this file'
complete -c mairix -l stdout -d 'Print the mbox, and write no file'
complete -c mairix -l boolean -d 'Read the patterns as one query with and, or, not and parentheses'
complete -c mairix -l once -d 'Index the archives in memory, and search that index'
complete -c mairix -l verify -d 'Check first that no archive has changed since it was indexed'
complete -c mairix -s h -l help -d 'Print a summary'
complete -c mairix -s V -l version -d 'Print the version'

# Only the prefix is completed: the word after it can't be guessed.
function __mairix_prefixes
    if contains -- --boolean (commandline -opc)
        printf '%s\t%s\n' \
            from: 'words of From fields' \
            to: 'words of To, Cc and Bcc fields' \
            subject: 'words of Subject fields' \
            body: 'words of the body' \
            id: 'the Message-ID' \
            date: 'days or months, like 2003-02..2003-04-15'
    else
        printf '%s\t%s\n' \
            s: 'words of Subject fields' \
            b: 'words of the body' \
            t: 'words of To fields' \
            c: 'words of Cc fields' \
            f: 'words of From fields' \
            a: 'words of To, Cc and From fields' \
            n: 'words of names of attachments' \
            m: 'the Message-ID' \
            d: 'dates, like 2w- or 20030217-20030415' \
            z: 'sizes, like 100k-' \
            F: 'flags: s, r and f'
    end
end

complete -c mairix -a '(__mairix_prefixes)'
