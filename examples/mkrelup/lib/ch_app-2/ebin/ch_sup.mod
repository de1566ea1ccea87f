{supervisor,ch_sup,"1",[{ch3,{ch3,start_link,[]},permanent,2000,worker,[ch3]},{aux,{aux,start_link,[]},transient,brutal_kill,worker,[aux]}]}.
