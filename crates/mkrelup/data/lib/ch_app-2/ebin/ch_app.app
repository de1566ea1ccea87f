{application,ch_app,[{vsn,"2"},{modules,[ch_sup,ch3,aux]},{mod,{ch_sup,[]}}]}.
