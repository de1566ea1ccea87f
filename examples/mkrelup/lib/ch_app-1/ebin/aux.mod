{worker,aux,"1",0,[{add,1,5},{stop,5,9,99}]}.
