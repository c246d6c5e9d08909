%% The kernel parameters of a node in the forms that a rehearsal takes, and what has to hold of those of all nodes. `At` tells where a
%% part of a parameter stands.
-module(gather_kernel).
-export([parameters/1, name/2, value/2, flat/1, known_nodes/1, named/1, agree/1]).
-import(gather_text, [refuse/2, text/2, names/1, unique/1, doubles/1]).
-define(READ, [distributed, sync_nodes_mandatory, sync_nodes_optional, sync_nodes_timeout, permissions]).
-define(LONGEST, 1000000000000).

%% A node with the parameters that are read, and notes of what was left out or replaced.
parameters(#{name := Name, kernel := Env, given := Given, left := Left, idle := Idle} = Node) ->
    {Kernel, Notes} = lists:unzip([parameter(P, V, fun(Part) -> place(P, Part, Node) end) || P <- ?READ, {Q, V} <- Env, Q =:= P]),
    Sections = [text("Left out: the sections ~ts.", [names(Left)]) || Left =/= []],
    Others = [text("Left out: the kernel parameters ~ts.", [names(Given -- ?READ)]) || Given -- ?READ =/= []],
    Unstarted = [text("Not started: ~ts.", [names([text("~ts (~ts)", [App, Why]) || {App, Why} <- Idle])]) || Idle =/= []],
    name(Name, fun(_) -> "--node" end),
    Node#{kernel => Kernel, notes => Sections ++ Others ++ Unstarted ++ lists:append(Notes)}.

%% Where a part of a parameter of a node stands, with the name of the node.
place(P, Part, #{name := Name, places := Places}) ->
    text("~ts: ~ts", [Name, (maps:get(P, Places))(Part)]).

parameter(distributed, List, At) when is_list(List) ->
    {Entries, Notes} = lists:unzip([entry(E, At) || E <- List]),
    [refuse("~ts: distributed has ~ts twice", [At(lists:last([E || E <- List, element(1, E) =:= App])), App])
     || App <- doubles([element(1, E) || E <- Entries])],
    {{distributed, Entries}, lists:append(Notes)};
parameter(sync_nodes_timeout, Time, At) when Time =/= infinity, Time =/= undefined ->
    {Number, Notes} = timeout(Time, "sync_nodes_timeout", At),
    {{sync_nodes_timeout, Number}, Notes};
parameter(sync_nodes_timeout, Time, _) -> {{sync_nodes_timeout, Time}, []};
parameter(permissions, List, At) when is_list(List) ->
    Apps = [case E of
        {App, May} when is_boolean(May) -> name(App, At);
        _ -> refuse("~ts: permissions has ~0tp, which is no {App, true} or {App, false}", [At(E), E])
    end || E <- List],
    {{permissions, [lists:keyfind(App, 1, List) || App <- unique(Apps)]}, second(Apps, permissions)};
parameter(Sync, List, At) when is_list(List) ->
    Names = [name(N, At) || N <- List],
    {{Sync, unique(Names)}, second(Names, Sync)};
parameter(Other, Value, At) -> refuse("~ts: ~ts is ~0tp, and no list", [At(Value), Other, Value]).

second(Names, Where) -> [text("Left out: ~ts for a second time in ~ts.", [N, Where]) || N <- doubles(Names)].

%% An entry of `distributed`.
entry({App, Nodes}, At) -> {{name(App, At), groups(App, Nodes, At)}, []};
entry({App, infinity, Nodes}, At) ->
    Note = text("Replaced: the timeout infinity of ~ts, by the longest one that rehearse takes.", [App]),
    {{name(App, At), ?LONGEST, groups(App, Nodes, At)}, [Note]};
entry({App, Time, Nodes}, At) ->
    {Number, Notes} = timeout(Time, text("the timeout of ~ts", [name(App, At)]), At),
    {{App, Number, groups(App, Nodes, At)}, Notes};
entry(Other, At) -> refuse("~ts: distributed has ~0tp, which is no {App, Timeout, Nodes}", [At(Other), Other]).

groups(App, Groups, At) ->
    is_list(Groups) andalso flat(Groups) =/= [] andalso not lists:member({}, Groups)
        orelse refuse("~ts: distributed has for ~ts no list of nodes: ~0tp", [At(Groups), App, Groups]),
    [refuse("~ts: distributed lists ~ts twice for ~ts", [At(Groups), N, App]) || N <- doubles([name(N, At) || N <- flat(Groups)])],
    Groups.

flat(Groups) -> lists:append([case is_tuple(G) of true -> tuple_to_list(G); false -> [G] end || G <- Groups]).

timeout(Time, _, _) when is_integer(Time), Time >= 0, Time =< ?LONGEST -> {Time, []};
timeout(Time, What, _) when is_integer(Time), Time > ?LONGEST ->
    {?LONGEST, [text("Replaced: ~ts, ~b, by the longest one that rehearse takes.", [What, Time])]};
timeout(Other, What, At) -> refuse("~ts: ~ts is ~0tp", [At(Other), What, Other]).

name(Name, At) when is_atom(Name) ->
    Bytes = atom_to_binary(Name, utf8),
    Bytes =/= <<>> andalso byte_size(Bytes) =< 255 andalso re:run(Bytes, "[\\x00-\\x20\\x7f]") =:= nomatch
        orelse refuse("~ts: ~0tp: rehearse takes names of 1 to 255 bytes without blanks and control characters", [At(Name), Name]),
    Name;
name(Other, At) -> refuse("~ts: ~0tp is no name", [At(Other), Other]).

value(Parameter, #{kernel := Kernel}) -> proplists:get_value(Parameter, Kernel, []).

%% Each node that a parameter names is given.
known_nodes(Nodes) ->
    [refuse("~ts: ~ts names ~ts, which isn't given: add --node ~ts", [place(P, Named, N), P, Named, Named])
     || N <- Nodes, P <- [distributed, sync_nodes_mandatory, sync_nodes_optional], Named <- named(P, N),
        not lists:any(fun(#{name := Name}) -> Name =:= Named end, Nodes)].

%% All nodes that the parameters of a node name, each once.
named(Node) -> unique(lists:append([named(P, Node) || P <- [distributed, sync_nodes_mandatory, sync_nodes_optional]])).

named(distributed, Node) -> lists:append([flat(element(tuple_size(E), E)) || E <- value(distributed, Node)]);
named(Parameter, Node) -> value(Parameter, Node).

%% The nodes that take part in distribution have the same `distributed` and `sync_nodes_timeout`, as kernel(6) wants.
agree(Nodes) ->
    Named = lists:append([named(distributed, N) || N <- Nodes]),
    Involved = [N || #{name := Name} = N <- Nodes, value(distributed, N) =/= [] orelse lists:member(Name, Named)],
    [refuse("~ts and ~ts take part in distribution, and their ~ts isn't the same, as kernel(6) wants (~ts; ~ts)",
            [NameA, NameB, P, told(P, A), told(P, B)])
     || #{name := NameA} = A <- lists:sublist(Involved, 1), #{name := NameB} = B <- Involved, P <- [distributed, sync_nodes_timeout],
        form(P, A) =/= form(P, B)].

told(P, #{name := Name, places := Places} = Node) ->
    case Places of
        #{P := _} -> place(P, make_ref(), Node);
        _ -> text("~ts: it isn't set", [Name])
    end.

form(distributed, Node) ->
    Full = [case E of {App, Groups} -> {App, 0, Groups}; _ -> E end || E <- value(distributed, Node)],
    lists:sort([{App, Time, [lists:sort(flat([G])) || G <- Groups]} || {App, Time, Groups} <- Full]);
form(P, #{kernel := Kernel}) -> proplists:get_value(P, Kernel, undefined).
