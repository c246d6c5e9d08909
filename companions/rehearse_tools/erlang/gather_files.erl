%% What gather reads of one node: its release and its configuration, as the runtime and systools read them.
-module(gather_files).
-export([node/2, otp/0, included/1, needed/1, optional/1]).
-import(gather_text, [refuse/2, usage/2, text/2, names/1, unique/1]).
-import(gather_source, [at/2, at_element/3]).

%% The applications of OTP and of Elixir.
otp() ->
    [kernel, stdlib, asn1, common_test, compiler, crypto, debugger, dialyzer, diameter, edoc, eldap, erl_docgen, erl_interface,
     erts, et, eunit, ftp, inets, jinterface, megaco, mnesia, observer, odbc, os_mon, parsetools, public_key, reltool,
     runtime_tools, sasl, snmp, ssh, ssl, syntax_tools, tftp, tools, wx, xmerl, eex, elixir, ex_unit, iex, logger, mix].

included(Keys) -> proplists:get_value(included_applications, Keys, []).
needed(Keys) -> proplists:get_value(applications, Keys, []).
optional(Keys) -> proplists:get_value(optional_applications, Keys, []).

%% A node by its options, each of which has the list of its values: `sources` says what was read, `kernel` has all kernel
%% parameters, of which the operator gave `given`, and `places` tells where each stands, `left` the other sections, `booted` what is
%% started, in order, with its types, `idle` what is there and isn't started, with the reason, `apps` the keys of each application, or
%% `missing`, `files` where these stand, and `warnings` what may be misspelt.
node(Name, Given) ->
    Options = with_release(Given#{name => Name}),
    Release = case Options of
        #{boot := _, rel := _} -> usage("~ts: --boot or --rel, and not both", [Name]);
        #{boot := Boots} -> from_boot(existing(lists:last(Boots), [".boot", ".script"]));
        #{rel := Rels} -> from_rel(existing(lists:last(Rels), [".rel"]), Options);
        #{bare := _} -> #{source => "no release", booted => [], idle => [], apps => #{}, files => #{}};
        _ -> usage("where is the release of ~ts? (--release, --boot or --rel; or --bare)", [Name])
    end,
    #{apps := Apps, files := Files} = Release,
    Own = case Apps of
        #{kernel := Keys} when is_list(Keys) ->
            At = fun(Part) -> at(maps:get(kernel, Files), Part) end,
            [{P, {V, At}} || {P, V} <- proplists:get_value(env, Keys, [])];
        _ -> []
    end,
    Config = gather_config:kernel(Options, maps:keys(Apps), Own),
    maps:merge(Release, Config#{name => Name, sources => [maps:get(source, Release) | maps:get(files, Config)], files => Files}).

%% ---- Files

%% A file that may be named without its suffix.
existing(File, Suffixes) -> hd([F || F <- [File | [File ++ S || S <- Suffixes]], filelib:is_regular(F)] ++ [File]).

found(Dir, Pattern) -> [filename:join(Dir, F) || F <- filelib:wildcard(Pattern, Dir)].

%% The options, with the files that lie in the folder of a release where none are given.
with_release(#{release := Dirs} = Options) ->
    Dir = lists:last(Dirs),
    [refuse("~ts: ~ts", [Dir, file:format_error(Why)]) || {error, Why} <- [file:read_file_info(Dir)]],
    Here = filename:join([Dir, "releases", version(Dir, Options)]),
    Rels = [F || F <- found(Here, "*.rel"), not lists:member(filename:basename(F), ["start_clean.rel", "no_dot_erlang.rel"])],
    Boots = found(Here, "start.boot") ++ [F || R <- Rels, F <- [filename:rootname(R) ++ ".boot"], filelib:is_regular(F)],
    Start = case {[Key || Key <- [boot, rel], maps:is_key(Key, Options)], Boots, Rels} of
        {[_ | _], _, _} -> #{};
        {[], [Boot | _], _} -> #{boot => [Boot]};
        {[], [], [Rel]} -> #{rel => [Rel]};
        _ -> refuse("~ts: it has no start.boot, and not one .rel file: give --boot or --rel", [Here])
    end,
    Own = [{config, ["sys.config", "sys.config.src"]}, {args, ["vm.args", "vm.args.src"]}],
    Files = maps:from_list([{Key, lists:sublist(lists:append([found(Here, N) || N <- Names]), 1)} || {Key, Names} <- Own]),
    maps:merge(maps:merge(Files, Start), Options#{lib => maps:get(lib, Options, []) ++ [filename:join(Dir, "lib")]});
with_release(Options) -> Options.

version(_, #{version := Versions}) -> lists:last(Versions);
version(Dir, _) ->
    Releases = filename:join(Dir, "releases"),
    Folders = unique([hd(filename:split(F)) || P <- ["*/*.rel", "*/start.boot"], F <- filelib:wildcard(P, Releases)]),
    Data = [element(1, gather_source:binary(F)) || F <- found(Releases, "start_erl.data")],
    case {[string:lexemes(binary_to_list(Bytes), " \r\n") || Bytes <- Data], Folders} of
        {[[_, Current | _]], _} -> Current;
        {_, [Version]} -> Version;
        {_, []} -> refuse("~ts: it has no releases/VERSION with a start.boot or .rel, as an unpacked release has", [Dir]);
        _ -> refuse("~ts: it has the versions ~ts: give --version", [Dir, names(Folders)])
    end.

%% ---- Releases

%% What a boot script starts and loads. It holds the keys of each application's .app file.
from_boot(File) ->
    {Script, Source} = case gather_source:binary(File) of
        {<<131, _/binary>> = Bytes, Binary} -> {try binary_to_term(Bytes) catch error:badarg -> none end, Binary};
        _ -> Text = gather_source:read(File, #{}), {gather_source:term(Text), Text}
    end,
    {Title, Steps} = case Script of
        {script, {Name, Vsn}, Instructions} when is_list(Instructions) -> {text("release ~ts ~ts", [Name, Vsn]), Instructions};
        _ -> refuse("~ts: it is no boot script", [File])
    end,
    Apps = [keys(Source, A) || {kernelProcess, _, {_, start, [{application, _, _} = A]}} <- Steps]
        ++ [keys(Source, A) || {apply, {application, load, [A]}} <- Steps],
    Booted = [{App, hd(Type ++ [permanent])} || {apply, {application, start_boot, [App | Type]}} <- Steps],
    release(text("~ts by ~ts", [Title, File]), Booted, [{App, load} || {App, _} <- Apps], Apps, [{App, Source} || {App, _} <- Apps]).

%% An application and its keys, of which those that name applications are as they should be.
keys(Source, {application, App, Keys}) when is_atom(App), is_list(Keys) ->
    [refuse("~ts: ~ts: ~0tp is no {Key, Value}", [at_element(Source, Keys, K), App, K])
     || K <- Keys, not (is_tuple(K) andalso tuple_size(K) =:= 2)],
    [refuse("~ts: ~ts: ~ts is ~0tp, and not a list of applications", [at_element(Source, Keys, {K, V}), App, K, V])
     || {K, V} <- Keys, lists:member(K, [applications, included_applications, optional_applications]),
        not is_list(V) orelse not lists:all(fun erlang:is_atom/1, V)],
    {App, Keys};
keys(Source, Other) -> refuse("~ts: ~0tP is no {application, Name, Keys}", [at(Source, Other), Other, 8]).

%% A release of which some applications are booted.
release(Title, Booted, Types, Apps, Files) ->
    Keys = maps:from_list(Apps),
    Idle = [{App, case [Holder || {Holder, _} <- Apps, includes(Holder, App, Keys)] of
        [Holder | _] -> text("included in ~ts", [Holder]);
        [] when Type =:= none -> "only its code is loaded";
        [] -> "only loaded"
    end} || {App, Type} <- Types, not lists:keymember(App, 1, Booted), App =/= kernel],
    #{source => Title, booted => [B || {App, _} = B <- Booted, App =/= kernel, App =/= stdlib], idle => Idle, apps => Keys,
      files => maps:from_list(Files)}.

includes(Holder, App, Apps) ->
    Keys = maps:get(Holder, Apps),
    Keys =/= missing andalso lists:member(App, included(Keys)).

%% What systools would make of a .rel file and the .app files.
from_rel(File, Options) ->
    Source = gather_source:read(File, #{}),
    {Title, Listed} = case gather_source:term(Source) of
        {release, {Name, Vsn}, {erts, _}, List} when is_list(List) -> {text("release ~ts ~ts", [Name, Vsn]), List};
        _ -> refuse("~ts: it is no {release, {Name, Vsn}, {erts, Vsn}, Applications}", [File])
    end,
    At = fun(App) -> at_element(Source, Listed, lists:keyfind(App, 1, Listed)) end,
    Entries = [entry(E, fun() -> at_element(Source, Listed, E) end) || E <- Listed],
    Libs = maps:get(lib, Options, []) ++ [filename:dirname(File), code:lib_dir()],
    Found = [{App, app_keys(App, Vsn, Incl, Libs, At)} || {App, Vsn, _, Incl} <- Entries],
    Read = [{App, Keys} || {App, {Keys, _}} <- Found],
    Holders = [{I, App} || {App, Keys} <- Read, Keys =/= missing, I <- included(Keys)],
    Apps = [{App, with_holders(App, Keys, Holders, [A || {A, _} <- Read])} || {App, Keys} <- Read],
    Types = [{App, Type} || {App, _, Type, _} <- Entries],
    Sorted = lists:foldl(fun({App, _}, Done) -> visit(App, [], Done, maps:from_list(Apps), At) end, [], Apps),
    Starts = [{App, proplists:get_value(App, Types)} || App <- Sorted, not lists:keymember(App, 1, Holders)],
    release(text("~ts by ~ts", [Title, File]), [S || {_, Type} = S <- Starts, Type =/= load, Type =/= none], Types, Apps,
            [{App, Where} || {App, {_, Where}} <- Found]).

entry({App, Vsn}, At) -> entry({App, Vsn, permanent, own}, At);
entry({App, Vsn, Incl}, At) when is_list(Incl) -> entry({App, Vsn, permanent, Incl}, At);
entry({App, Vsn, Type}, At) -> entry({App, Vsn, Type, own}, At);
entry({App, _, Type, _} = Entry, At) when is_atom(App) ->
    lists:member(Type, [permanent, transient, temporary, load, none]) orelse refuse("~ts: ~ts has type ~0tp", [At(), App, Type]),
    Entry;
entry(Other, At) -> refuse("~ts: ~0tp is no application of a release", [At(), Other]).

%% The keys of the .app file of this version, and its source. One of OTP's may be missing, where nothing of it has to be written.
app_keys(App, Vsn, Incl, Libs, At) ->
    Name = atom_to_list(App),
    Places = ["", "ebin/", Name ++ "/ebin/", Name ++ "-*/ebin/"],
    Read = [app_file(F) || Lib <- Libs, Place <- Places, F <- found(Lib, Place ++ Name ++ ".app")],
    Fit = [{Keys, Source} || {{A, Keys}, Source} <- Read, A =:= App, proplists:get_value(vsn, Keys) =:= Vsn],
    case {Fit, lists:member(App, otp())} of
        {[Found | _], _} when Incl =:= own -> Found;
        {[{Keys, Source} | _], _} -> {lists:keystore(included_applications, 1, Keys, {included_applications, Incl}), Source};
        {[], true} -> {missing, #{file => "nothing", text => none}};
        {[], false} ->
            There = [F || {_, #{file := F}} <- Read] ++ [nothing || Read =:= []],
            refuse("~ts: ~ts ~ts: its .app file isn't in ~ts; what is there: ~ts", [At(App), App, Vsn, names(Libs), names(There)])
    end.

app_file(File) ->
    Source = gather_source:read(File, #{}),
    {keys(Source, gather_source:term(Source)), Source}.

%% The keys as systools writes them: what is needed and included in the release's order, and in place of an included
%% application the one that includes it.
with_holders(_, missing, _, _) -> missing;
with_holders(App, Keys, Holders, Order) ->
    Own = top(App, Holders),
    Uses = [case top(Use, Holders) of Own -> Use; Top -> Top end || Use <- needed(Keys), Use =/= Own],
    Sorted = fun(List) -> [A || A <- Order, lists:member(A, List)] ++ unique([A || A <- List, not lists:member(A, Order)]) end,
    lists:foldl(fun({Key, _} = Pair, So) -> lists:keystore(Key, 1, So, Pair) end, Keys,
                [{applications, Sorted(Uses)}, {included_applications, Sorted(included(Keys))}]).

top(App, Holders) ->
    case lists:keyfind(App, 1, Holders) of
        {App, Holder} -> top(Holder, Holders);
        false -> App
    end.

%% The applications that are sorted, with one more, and before it those that it needs and includes.
visit(App, Path, Done, Apps, At) ->
    Keys = case maps:get(App, Apps) of missing -> []; Read -> Read end,
    case {lists:member(App, Done), lists:member(App, Path)} of
        {true, _} -> Done;
        {_, true} -> refuse("~ts: ~ts needs itself, by ~ts", [At(App), App, names(Path)]);
        _ ->
            All = needed(Keys) ++ included(Keys),
            [refuse("~ts: ~ts needs ~ts, which isn't in this release", [At(App), App, D])
             || D <- All -- optional(Keys), not maps:is_key(D, Apps)],
            First = [D || D <- All, maps:is_key(D, Apps), not includes(D, App, Apps)],
            lists:foldl(fun(D, So) -> visit(D, [App | Path], So, Apps, At) end, Done, First) ++ [App]
    end.
