"""What tools/gpurace-record is made of: it runs a program under a recorder, judges its launches, and says what was found.

Modules, each standing on those above it:
`folders`, `records`, `sides` and `elements` read a launch's folder;
`finding`, `causes`, `pairs` and `findings` say what gpurace's answers mean in the kernel's own terms;
`judging` judges one launch, `pipes` one that is still recorded, and `judges` all of a program; `progress` shows how far that is;
`report` sums them up, `known` says which findings are no news, `outputs`, `page` and `picture` make of it what others read, and `writing`
writes that;
`recording`, `native` and `simulator` run a program under a recorder;
`command` and `judge_command` are the command lines, and `plugin` has what pytest takes.
"""
