// A copy at another host changes this path, or a program's go.mod replaces it.
module example.org/raft-log-engine/raftlog

go 1.19
