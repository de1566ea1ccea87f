{application,ch_app,[{vsn,"1"},{modules,[ch_sup,ch3,aux]},{mod,{ch_sup,[]}}]}.
