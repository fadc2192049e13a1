# Where the players stand, for the scripts that run them: the one place to change.
# Sourced with `root` set to the project's folder. PLAYER and PLAYER_STATES name
# other programs.
player=${PLAYER:-$root/target/bin/player}
player_states=${PLAYER_STATES:-$root/target/bin/player_states}
# The lister of ./list stands beside them; LISTER names another program.
lister=${LISTER:-$root/target/bin/lister}
