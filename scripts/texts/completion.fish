# @made@
function __gossip_values
    set -l before (string replace -r '[^,=]*$' '' -- (commandline -ct))
    printf '%s\n' $before$argv
end
@lines@
