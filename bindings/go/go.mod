module carrotknife.example/cedar

go 1.19
