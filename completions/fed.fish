# What fish completes the words of fed by. completions/make wrote it from completions/words.
function __fed_offered
    set -l words (commandline -opc)
    set -l act ''
    set -l offered
    switch (count $words):$words[-1]
        case '1:*'
            printf '%s\n' verify\t'checks an entity configuration under a public key' keygen\t'makes a key and the file of its ring' issue\t'signs claims by a ring'\''s newest live key' rotate\t'changes a key ring' public\t'shows the public keys of a ring' check\t'checks a trust chain for its trust anchor' check-reply\t'checks a resolver'\''s reply, its chain and what it says' show\t'shows what a text, a chain or a key set says, unverified' check-config\t'says what is wrong with a node'\''s configuration, or what the node is' authority\t'answers connections as an authority' resolver\t'answers connections as a resolver' resolve\t'resolves an entity up to a trust anchor' register\t'registers a relying party that posts its configuration or its chain' rehearse\t'resolves the leaf of a federation in memory twice' help\t'shows how a command is called' --help\t'shows every command' --version\t'shows the version'
            return
        case '2:help'
            printf '%s\n' verify keygen issue rotate public check check-reply show check-config authority resolver resolve register rehearse help
            return
        case '*:--act'
            printf '%s\n' add retire revoke
            return
        case '*:--alg'
            printf '%s\n' 128s 128f
            return
        case '*:--claims'
            printf '%s\n' yes
            return
        case '*:--heed'
            printf '%s\n' yes
            return
        case '*:--reason'
            printf '%s\n' unspecified compromised superseded
            return
        case '*:--stream'
            printf '%s\n' yes
            return
        case '*:--strict'
            printf '%s\n' yes
            return
        case '*:--typ'
            printf '%s\n' entity-statement+jwt trust-mark+jwt trust-mark-delegation+jwt
            return
        case '*:--anchor-keys' '*:--config' '*:--keys' '*:--ring' '*:--anchor' '*:--at' '*:--connections' '*:--exp' '*:--kid' '*:--params' '*:--port' '*:--sub' '*:--workers'
            return
    end
    if set -l at (contains -i -- --act $words)
        set act $words[(math $at + 1)]
    end
    switch $words[2]:$act
        case authority:
            set offered --config\t'the file of the node'\''s configuration' --port\t'the port that is listened on, 1 to 65535' --connections\t'how many connections are answered, 1 to 1000000' --stream\t'a connection may ask more than once'
        case check:
            set offered --anchor\t'the trust anchor'\''s identifier' --keys\t'the file of the trust anchor'\''s key set, and for check-reply of the resolver'\''s' --at\t'from when, or for which moment, in seconds since 1970'
        case check-config:
            set offered --config\t'the file of the node'\''s configuration' --at\t'from when, or for which moment, in seconds since 1970' --strict\t'what is warned of is refused'
        case check-reply:
            set offered --keys\t'the file of the trust anchor'\''s key set, and for check-reply of the resolver'\''s' --anchor\t'the trust anchor'\''s identifier' --anchor-keys\t'the file of the trust anchor'\''s key set' --at\t'from when, or for which moment, in seconds since 1970'
        case issue:
            set offered --ring\t'the file of the key ring' --typ\t'which type of text is signed' --workers\t'by how many workers the text is signed, 1 to 16'
        case keygen:
            set offered --ring\t'the file of the key ring' --at\t'from when, or for which moment, in seconds since 1970' --exp\t'until when, in seconds since 1970' --alg\t'the algorithm of the new key'
        case public:
            set offered --ring\t'the file of the key ring' --kid\t'the name of a key of the ring'
        case register:
            set offered --config\t'the file of the node'\''s configuration' --anchor\t'the trust anchor'\''s identifier'
        case rehearse:
            set offered --params\t'how many parameters the leaf'\''s metadata has, 0 to 200'
        case resolve:
            set offered --config\t'the file of the node'\''s configuration' --sub\t'the entity that is resolved' --anchor\t'the trust anchor'\''s identifier' --heed\t'the issuers of the marks are asked about them'
        case resolver:
            set offered --config\t'the file of the node'\''s configuration' --port\t'the port that is listened on, 1 to 65535' --connections\t'how many connections are answered, 1 to 1000000'
        case rotate:
            set offered --ring\t'the file of the key ring' --act\t'what is changed' --at\t'from when, or for which moment, in seconds since 1970' --exp\t'until when, in seconds since 1970' --alg\t'the algorithm of the new key' --kid\t'the name of a key of the ring' --reason\t'why the key is revoked'
        case rotate:add
            set offered --ring\t'the file of the key ring' --act\t'what is changed' --at\t'from when, or for which moment, in seconds since 1970' --exp\t'until when, in seconds since 1970' --alg\t'the algorithm of the new key'
        case rotate:retire
            set offered --ring\t'the file of the key ring' --act\t'what is changed' --kid\t'the name of a key of the ring'
        case rotate:revoke
            set offered --ring\t'the file of the key ring' --act\t'what is changed' --kid\t'the name of a key of the ring' --at\t'from when, or for which moment, in seconds since 1970' --reason\t'why the key is revoked'
        case show:
            set offered --claims\t'of a signed text the claims alone, as JSON'
    end
    for option in $offered
        contains -- (string split -m 1 \t -- $option)[1] $words
        or printf '%s\n' $option
    end
end

function __fed_wants_file
    contains -- (commandline -opc)[-1] --anchor-keys --config --keys --ring
end

complete -c fed -f
complete -c fed -a '(__fed_offered)'
complete -c fed -n __fed_wants_file -F
