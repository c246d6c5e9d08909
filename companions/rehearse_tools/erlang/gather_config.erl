%% The configuration of one node, as application_controller reads it: parameter by parameter, the later one counts.
-module(gather_config).
-export([kernel/3]).
-import(gather_text, [refuse/2, text/2, doubles/1, near/2]).
-define(READ, ["distributed", "sync_nodes_mandatory", "sync_nodes_optional", "sync_nodes_timeout", "permissions"]).

%% The kernel parameters of the configuration files and args files of a node, with what else is there: the names of the files that
%% were read, the names of the other sections, for each parameter where it stands, and what may be misspelt. `Apps` are the
%% applications of the release: a section of one of them isn't misspelt.
kernel(Options, Apps, Own) ->
    Words = lists:append([args(File, Options) || File <- maps:get(args, Options, [])]),
    {Named, Flags, Misspelt} = flags(Words, [], [], []),
    Given = [{File, fun() -> "" end} || File <- maps:get(config, Options, [])],
    Begun = #{files => [], sections => [], heads => []},
    Read = lists:foldl(fun({File, Namer}, So) -> config(File, Namer, Options, So) end, Begun, Given ++ Named),
    #{files := Files, sections := Sections, heads := Heads} = Read,
    Written = merged(proplists:get_value(kernel, Sections, []), Flags),
    #{files => Files ++ maps:get(args, Options, []), left => [S || {S, _} <- Sections, S =/= kernel],
      given => [P || {P, _} <- Written], kernel => [{P, V} || {P, {V, _}} <- merged(Own, Written)],
      places => maps:from_list([{P, At} || {P, {_, At}} <- merged(Own, Written)]),
      warnings => misspelt_sections(Heads, Apps) ++ misspelt_parameters(proplists:get_value(kernel, Sections, []) ++ Flags) ++ Misspelt}.

%% ---- Files

%% What was read, with a configuration file more. A sys.config, and no other, may name further files, and may have a section several
%% times. `Namer` tells what names it.
config(Given, Namer, Options, So) ->
    File = case lists:member(filename:extension(Given), [".config", ".src"]) of true -> Given; false -> Given ++ ".config" end,
    Source = source(File, Namer, Options),
    Elements = listed(Source),
    case filename:basename(filename:basename(File, ".src")) of
        "sys.config" -> lists:foldl(fun(E, Done) -> element_of(E, Source, Elements, Options, Done) end, added(Source, [], So), Elements);
        _ ->
            [refuse("~ts: section ~ts stands twice", [gather_source:second(Source, Elements, S), S])
             || S <- doubles([S || {S, _} <- Elements])],
            added(Source, Elements, So)
    end.

source(File, Namer, Options) ->
    try gather_source:read(File, Options)
    catch throw:{refused, Why} -> refuse("~ts~ts", [Why, Namer()])
    end.

%% An element of a sys.config: a section, or the name of a file, which is looked for beside it first.
element_of(Section, Source, _, _, So) when is_tuple(Section) -> with_sections([Section], Source, So);
element_of(Name, #{file := File} = Source, Elements, Options, So) ->
    io_lib:char_list(Name) orelse section(Name, Source),
    Other = filename:rootname(Name, ".config") ++ ".config",
    Beside = filename:join(filename:dirname(File), Other),
    Namer = fun() -> text(", which ~ts names", [gather_source:at_element(Source, Elements, Name)]) end,
    Read = source(case filelib:is_regular(Beside) of true -> Beside; false -> Other end, Namer, Options),
    added(Read, listed(Read), So).

added(#{file := File} = Source, Elements, #{files := Files} = So) ->
    with_sections(Elements, Source, So#{files := Files ++ [File]}).

listed(Source) ->
    case gather_source:term(Source) of
        List when is_list(List) -> List;
        Other -> refuse("~ts: it isn't a list", [gather_source:at(Source, Other)])
    end.

%% The sections so far, each parameter with its value and with what tells where a part of it stands; and those of some elements.
with_sections(Elements, Source, #{sections := Sections, heads := Heads} = So) ->
    More = [section(E, Source) || E <- Elements],
    Add = fun({S, Env}, Done) -> lists:keystore(S, 1, Done, {S, merged(proplists:get_value(S, Done, []), Env)}) end,
    So#{sections := lists:foldl(Add, Sections, More),
        heads := Heads ++ [{S, fun() -> gather_source:at(Source, E) end} || {S, _} = E <- Elements]}.

section({Name, Env}, Source) when is_atom(Name), is_list(Env) ->
    [case E of
        {P, _} when is_atom(P) -> ok;
        _ -> refuse("~ts: section ~ts: ~0tp is no {Parameter, Value}", [gather_source:at_element(Source, Env, E), Name, E])
    end || E <- Env],
    [refuse("~ts: section ~ts: ~ts stands twice", [gather_source:second(Source, Env, P), Name, P])
     || P <- doubles([P || {P, _} <- Env])],
    {Name, [{P, {V, fun(Part) -> gather_source:at(Source, {P, V}, Part) end}} || {P, V} <- Env]};
section(Other, Source) ->
    Hint = case io_lib:char_list(Other) of true -> " (a live node includes files in a sys.config itself alone)"; false -> "" end,
    refuse("~ts: ~0tp is no section {Application, Parameters}~ts", [gather_source:at(Source, Other), Other, Hint]).

merged(Old, New) -> lists:foldl(fun({P, _} = Pair, Env) -> lists:keystore(P, 1, Env, Pair) end, Old, New).

%% ---- Command lines

%% The words of an args file, each with where it stands.
args(File, Options) ->
    Source = gather_source:read(File, Options#{comment => $#}),
    [{Word, text("~ts line ~b", [File, Line])} || {Line, Word} <- gather_source:words(Source)].

%% The configuration files and kernel parameters of a command line of erl, and flags that may be misspelt.
flags([], Configs, Env, Misspelt) -> {Configs, Env, lists:reverse(Misspelt)};
flags([{"-extra", _} | _], Configs, Env, Misspelt) -> flags([], Configs, Env, Misspelt);
flags([{Flag, At} | Rest], Configs, Env, Misspelt) ->
    {Values, Left} = lists:splitwith(fun({Word, _}) -> not lists:member(hd(Word ++ " "), "-+") end, Rest),
    case Flag of
        "-config" -> flags(Left, Configs ++ [{File, fun() -> text(", which ~ts names", [Where]) end} || {File, Where} <- Values],
                           Env, Misspelt);
        "-kernel" -> flags(Left, Configs, merged(Env, pairs(Values)), Misspelt);
        _ -> flags(Left, Configs, Env, [warning(At, "flag", Flag, "-kernel") || {near, _} <- [near(Flag, ["-kernel"])]] ++ Misspelt)
    end.

pairs([{Parameter, At}, {Value, _} | Rest]) ->
    case gather_source:parsed(Value) of
        {ok, Term} -> [{list_to_atom(Parameter), {Term, fun(_) -> At end}} | pairs(Rest)];
        error -> refuse("~ts: -kernel ~ts ~ts: this is no term", [At, Parameter, Value])
    end;
pairs(_) -> [].

%% ---- What may be misspelt

misspelt_sections(Heads, Apps) ->
    [warning(At(), "section", atom_to_list(S), "kernel")
     || {S, At} <- Heads, not lists:member(S, Apps), {near, _} <- [near(atom_to_list(S), ["kernel"])]].

misspelt_parameters(Env) ->
    [warning(At(make_ref()), "kernel parameter", atom_to_list(P), Meant)
     || {P, {_, At}} <- Env, {near, Meant} <- [near(atom_to_list(P), ?READ)]].

warning(At, What, Word, Meant) -> text("~ts: the ~ts ~ts isn't read: is ~ts meant?", [At, What, Word, Meant]).
