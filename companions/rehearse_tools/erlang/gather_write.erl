%% The terms of a cluster file, each behind comments that tell what was left out or replaced.
-module(gather_write).
-export([node_text/4, application_text/2]).
-import(gather_text, [refuse/2, text/2, names/1]).
-import(gather_kernel, [name/2, value/2, flat/1]).
-import(gather_files, [needed/1]).

%% A node's term, behind comments: what it was read from, and what was left out.
node_text(#{name := Name, sources := Sources, kernel := Kernel, booted := Booted} = Node, Platform, Apps, Nodes) ->
    Starts = [Start || {App, _} = Start <- Booted, lists:member(App, Apps)],
    {Boot, Unlisted} = lists:partition(fun({App, _}) -> may_boot(App, Node, Nodes) end, Starts),
    Others = names([App || {App, _} <- Unlisted]),
    Notes = notes(Node, Nodes)
        ++ [text("Not booted here, since distributed doesn't list this node: ~ts.", [Others]) || Others =/= []],
    Own = [{Key, List} || {Key, List} <- [{boot, Boot}, {platform, Platform}], List =/= []],
    Sections = [["\n  {", atom_to_list(Section), ", [", lists:join(",", [["\n    ", pair(P)] || P <- Pairs]), "]}"]
                || {Section, Pairs} <- [{kernel, Kernel}, {rehearse, Own}], Pairs =/= []],
    term_text([text("~ts: ~ts.", [Name, names(Sources)]) | Notes], node, Name, lists:join(",", Sections)).

term_text(Notes, Kind, Name, Parts) ->
    ["\n", comments(Notes), "{", atom_to_list(Kind), ", ", plain(Name, 0), ", [", Parts, "]}.\n"].

%% The notes of a node, or the name of the first one that has the same.
notes(#{name := Name, notes := Notes}, Nodes) ->
    case [Other || #{name := Other, notes := Same} <- Nodes, Same =:= Notes] of
        [Name | _] -> Notes;
        [First | _] -> [text("Left out, replaced and not started: the same as at ~ts.", [First]) || Notes =/= []]
    end.

%% Whether a node may boot an application: it is local, or lists the node.
may_boot(App, #{name := Name}, Nodes) ->
    case [flat(element(tuple_size(E), E)) || N <- Nodes, E <- value(distributed, N), element(1, E) =:= App] of
        [] -> true;
        [Listed | _] -> lists:member(Name, Listed)
    end.

pair({Key, List}) when is_list(List) -> list_text(Key, [plain(E, 0) || E <- List]);
pair({Key, Value}) -> ["{", atom_to_list(Key), ", ", plain(Value, 0), "}"].

list_text(Key, Texts) -> ["{", atom_to_list(Key), ", [", folded(Texts, 8 + length(atom_to_list(Key)), "      "), "]}"].

%% Items with commas between them, in lines of at most 120 columns as far as that goes.
folded([First | Rest], Column, Indent) ->
    element(2, lists:foldl(fun(Item, {At, Text}) ->
        case At + 2 + string:length(Item) of
            Next when Next =< 116 -> {Next, [Text, ", ", Item]};
            _ -> {length(Indent) + string:length(Item), [Text, ",\n", Indent, Item]}
        end end, {Column + string:length(First), First}, Rest));
folded([], _, _) -> [].

%% Lines as comments, whatever stands in them.
comments(Lines) ->
    [["% ", folded(string:split([max(C, $\s) || C <- Line], ", ", all), 2, "%   "), "\n"] || Line <- Lines].

%% The term of an application, which is the same at each node that has it: of each of them what was read, the keys, and where they
%% stand. `Needs` is what it needs.
application_text(App, {[], _}) -> term_text([text("~ts: no release has it. It starts nowhere.", [App])], application, App, "");
application_text(App, {[{First, Keys, Source} | Others] = All, Needs}) ->
    [refuse("~ts is to be rehearsed, and its .app file isn't found: give --lib", [App]) || {_, missing, _} <- All],
    [refuse("~ts: its .app files differ in applications or start_phases (~ts; ~ts)", [App, hd(First), hd(Other)])
     || {Other, Theirs, _} <- Others, rules(Theirs) =/= rules(Keys)],
    application_text(App, Keys, Needs, fun(Part) -> gather_source:at(Source, Part) end).

rules(Keys) -> {lists:sort(needed(Keys)), is_list(proplists:get_value(start_phases, Keys))}.

application_text(App, Keys, Needs, At) ->
    Left = [case K of included_applications -> text("included_applications (~ts)", [names(V)]); _ -> K end
            || {K, V} <- Keys, not lists:member(K, [applications, mod, start_phases]), V =/= [], V =/= infinity],
    Absent = needed(Keys) -- Needs,
    Notes = [text("Left out of ~ts: ~ts.", [App, names(Left)]) || Left =/= []]
        ++ [text("Left out of ~ts, since a release with it hasn't these: the optional ~ts.", [App, names(Absent)])
            || Absent =/= []],
    {Parts, More} = lists:unzip([{pair({applications, [name(N, At) || N <- Needs]}), []} || Needs =/= []]
        ++ [key(mod, M, At) || {mod, M} <- Keys, M =/= []] ++ [key(start_phases, P, At) || {start_phases, P} <- Keys, is_list(P)]),
    term_text(Notes ++ lists:append(More), application, name(App, At), lists:join(",\n  ", Parts)).

%% The text of a key, and notes of what was replaced.
key(mod, {Module, Argument}, _) when is_atom(Module) ->
    {Text, Notes} = argument(Argument, 4, text("the start argument of ~ts", [Module])),
    {["{mod, {", plain(Module, 0), ", ", Text, "}}"], Notes};
key(start_phases, List, At) ->
    {Texts, Notes} = lists:unzip([phase(Phase, At) || Phase <- List]),
    {list_text(start_phases, Texts), lists:append(Notes)};
key(Key, Value, At) -> refuse("~ts: ~ts is ~0tp, which is no {Module, Argument}", [At({Key, Value}), Key, Value]).

phase({Phase, Argument}, At) ->
    {Text, Notes} = argument(Argument, 5, text("the argument of the start phase ~ts", [name(Phase, At)])),
    {["{", plain(Phase, 0), ", ", Text, "}"], Notes};
phase(Other, At) -> refuse("~ts: start_phases has ~0tp, which is no {Phase, Argument}", [At(Other), Other]).

%% An argument as it stands, or [] where rehearse doesn't read such a term.
argument(Argument, Depth, What) ->
    try {plain(Argument, Depth), []}
    catch throw:{unread, Why} -> {"[]", [text("Replaced by []: ~ts, since it has ~ts.", [What, Why])]}
    end.

%% A term that stands inside of so many lists and tuples, in the grammar of rehearse.
plain(Atom, _) when is_atom(Atom) ->
    Text = atom_to_list(Atom),
    case re:run(Text, "^[a-z][a-zA-Z0-9_@]*$", [unicode, dollar_endonly]) of
        nomatch -> quoted(Text, $');
        _ -> Text
    end;
plain(Number, _) when is_integer(Number), Number >= -(1 bsl 63), Number < 1 bsl 63 -> integer_to_list(Number);
plain(Tuple, Depth) when is_tuple(Tuple), Depth < 64 -> ["{", plain_items(tuple_to_list(Tuple), Depth), "}"];
plain(List, Depth) when is_list(List), Depth < 64 ->
    is_integer(catch length(List)) orelse throw({unread, "an improper list"}),
    case List =/= [] andalso lists:all(fun(C) -> is_integer(C) andalso C >= 32 andalso C < 127 end, List) of
        true -> quoted(List, $");
        false -> ["[", plain_items(List, Depth), "]"]
    end;
plain(Other, _) ->
    Kinds = [{fun erlang:is_integer/1, "an integer of more than 64 bits"}, {fun erlang:is_float/1, "a float"},
             {fun erlang:is_map/1, "a map"}, {fun erlang:is_bitstring/1, "a binary"}, {fun erlang:is_function/1, "a fun"}],
    throw({unread, hd([Kind || {Is, Kind} <- Kinds, Is(Other)] ++ ["too many lists and tuples inside one another"])}).

plain_items(Terms, Depth) -> lists:join(", ", [plain(T, Depth + 1) || T <- Terms]).

quoted(Text, Quote) -> [Quote, [case C =:= Quote orelse C =:= $\\ of true -> [$\\, C]; false -> C end || C <- Text], Quote].
