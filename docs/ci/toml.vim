:set makeprg=toml-span\ check\ --format\ short\ %
:set errorformat=%f:%l:%c:\ %m
:make
