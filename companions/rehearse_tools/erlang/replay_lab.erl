%% The nodes of replay: each is an OTP node of this machine, an OS process that listens on the loopback alone. Every process that
%% is started has a keeper, a shell that ends it as soon as it gets a line, or its input ends: as it does when replay ends, by
%% whatever. So nothing is left behind.
-module(replay_lab).
-export([open/3, close/1, own/2, boot/2, crash/2, mode/2, wrote/2, ask/5, next/2, now_ms/0]).
-define(LOOPBACK, {127, 0, 0, 1}).
-define(LONGEST_BOOT, 30000).
-define(LONGEST_END, 10000).
%% What starts a process with its output in a file, ends it, and ends when it has ended.
-define(KEEPER, "exec 3<&0 2> /dev/null; out=$0; \"$@\" 3<&- < /dev/null > \"$out\" 2>&1 & kept=$!; "
                "{ read -r _ <&3; kill -KILL $kept; } & reader=$!; wait $kept; kill -KILL $reader").
%% What removes a folder at the end; where nobody asks for it, when those that write there have ended.
-define(REMOVER, "read -r _ || sleep 1; rm -rf -- \"$0\"").
-define(NOT_INHERITED, ["ERL_FLAGS", "ERL_AFLAGS", "ERL_ZFLAGS", "ERL_LIBS", "ERL_INETRC", "ERL_ROOTDIR"]).

now_ms() -> erlang:monotonic_time(millisecond).

%% The nodes of a cluster file, none of them booted. All times of theirs are multiplied by a factor. `Code` has the names and the
%% code of the modules that they need.
open(Terms, Factor, Code) ->
    Apps = [App || {application, _, _} = App <- Terms],
    Dir = string:trim(os:cmd("mktemp -d -t rehearse-replay.XXXXXX")),
    filelib:is_dir(Dir) orelse throw({nodes, ["no folder can be made: ", Dir]}),
    Folder = shell(?REMOVER, [Dir], []),
    Cookie = cookie(filename:join(Dir, ".erlang.cookie")),
    [write(Dir, lists:concat([Module, ".beam"]), Binary) || {Module, Binary} <- Code],
    [begin
         write(Dir, lists:concat([Node, ".config"]), io_lib:format("~0tp.~n", [[{kernel, kernel(Config, Factor)}]])),
         write(Dir, lists:concat([Node, ".boot"]), term_to_binary(boot_script(own(boot, Config), own(platform, Config), Apps)))
     end || {node, Node, Config} <- Terms],
    {ok, Listener} = gen_tcp:listen(0, [binary, {packet, 4}, {active, false}, {ip, ?LOOPBACK}]),
    Owner = self(),
    spawn_link(fun() -> accept(Listener, Cookie, Owner) end),
    {ok, Port} = inet:port(Listener),
    #{dir => Dir, folder => Folder, port => Port, alive => #{}, channels => #{}, asked => 0}.

write(Dir, Name, Bytes) -> ok = file:write_file(filename:join(Dir, Name), Bytes).

%% Makes the cookie, which nobody else can guess or read.
cookie(File) ->
    {ok, Device} = file:open("/dev/urandom", [read, raw, binary]),
    {ok, <<Number:128>>} = file:read(Device, 16),
    ok = file:write_file(File, integer_to_list(Number, 36)),
    ok = file:change_mode(File, 8#400),
    list_to_atom(integer_to_list(Number, 36)).

%% Ends all nodes, and then removes what they wrote.
close(#{alive := Alive, folder := Folder}) ->
    [begin
         [end_kept(Port) || Port <- Ports],
         [receive {Port, {exit_status, _}} -> ok after ?LONGEST_END -> ok end || Port <- Ports]
     end || Ports <- [maps:values(Alive), [Folder]]].

shell(Text, Words, Options) ->
    open_port({spawn_executable, "/bin/sh"}, [{args, ["-c", Text | Words]}, exit_status, binary | Options]).

end_kept(Port) -> catch port_command(Port, "\n").

%% ---- What a node is given

own(Key, Config) -> proplists:get_value(Key, proplists:get_value(rehearse, Config, []), []).

kernel(Config, Factor) ->
    [{inet_dist_use_interface, ?LOOPBACK} | [scaled(P, Factor) || {Name, _} = P <- proplists:get_value(kernel, Config, []),
        lists:member(Name, [distributed, sync_nodes_mandatory, sync_nodes_optional, sync_nodes_timeout, permissions])]].

scaled({distributed, Entries}, Factor) ->
    {distributed, [case E of {App, Time, Groups} -> {App, ceil(Time * Factor), Groups}; _ -> E end || E <- Entries]};
scaled({sync_nodes_timeout, Time}, Factor) when is_integer(Time) -> {sync_nodes_timeout, ceil(Time * Factor)};
scaled(Parameter, _) -> Parameter.

%% The boot script of this OTP, with the lines that systools adds for applications, in the order of the boot list as it stands.
boot_script(Boot, Platform, Apps) ->
    {ok, Bytes} = file:read_file(filename:join([code:root_dir(), "bin", "start_clean.boot"])),
    {script, Id, Steps} = binary_to_term(Bytes),
    Specs = [{application, App, [{applications, []} | about(App)]} || App <- Platform]
        ++ [{application, App, [{mod, {replay_node, App}} | about(App)]
             ++ [Key || {Name, _} = Key <- Keys, lists:member(Name, [applications, start_phases])]} || {application, App, Keys} <- Apps],
    Loads = [{apply, {application, load, [Spec]}} || Spec <- Specs],
    Starts = [{apply, {replay_node, up, []}}]
        ++ [{apply, {application, start_boot, [App, permanent]}} || App <- Platform]
        ++ [{apply, {replay_node, boot, [App, Type]}} || {App, Type} <- Boot] ++ [{apply, {replay_node, booted, []}}],
    {Loaded, [Progress | More]} = lists:splitwith(fun(S) -> S =/= {progress, applications_loaded} end, Steps),
    {Basic, End} = lists:splitwith(fun(S) -> S =/= {progress, started} end, More),
    {script, Id, Loaded ++ Loads ++ [Progress] ++ [S || S <- Basic, S =/= {apply, {c, erlangrc, []}}] ++ Starts ++ End}.

about(App) -> [{description, atom_to_list(App)}, {vsn, "1"}, {modules, []}, {registered, []}].

%% ---- Nodes begin and end

%% Boots a node, and comes back when it is alive, so that others can see it; or has ended.
boot(Node, #{dir := Dir, port := Port, alive := Alive, channels := Channels} = Lab) ->
    Name = atom_to_list(Node),
    Own = fun(Suffix) -> filename:join(Dir, Name ++ Suffix) end,
    file:delete(Own(".port")),
    Length = case lists:member($., Name) of true -> "-name"; false -> "-sname" end,
    Erl = filename:join([code:root_dir(), "bin", "erl"]),
    Words = [Own(".out"), Erl, "-noinput", Length, Name, "-boot", Own(""), "-config", Own(""), "-pa", Dir,
             "-epmd_module", "replay_node", "-start_epmd", "false", "+S", "2", "+sbwt", "none"],
    Env = [{"HOME", Dir}, {"REPLAY_PORT", integer_to_list(Port)}, {"REPLAY_NODE", Name}, {"ERL_CRASH_DUMP_SECONDS", "0"}]
        ++ [{Variable, false} || Variable <- ?NOT_INHERITED],
    Keeper = shell(?KEEPER, Words, [{env, Env}, {cd, Dir}]),
    alive(Keeper, Own(".port"), now_ms() + ?LONGEST_BOOT),
    Lab#{alive := Alive#{Node => Keeper}, channels := maps:remove(Node, Channels)}.

alive(Keeper, File, End) ->
    case filelib:file_size(File) > 0 orelse erlang:port_info(Keeper) =:= undefined of
        true -> ok;
        false ->
            now_ms() < End orelse throw({nodes, [filename:basename(File, ".port"), " doesn't begin"]}),
            timer:sleep(10),
            alive(Keeper, File, End)
    end.

%% Kills a node.
crash(Node, #{alive := Alive}) -> end_kept(maps:get(Node, Alive)).

%% What a node is: up where it has joined.
mode(Node, #{alive := Alive, channels := Channels}) ->
    case {maps:is_key(Node, Alive), maps:is_key(Node, Channels)} of
        {false, _} -> down;
        {true, false} -> waiting;
        {true, true} -> up
    end.

%% The last line that a node wrote.
wrote(Node, #{dir := Dir}) ->
    {ok, Bytes} = file:read_file(filename:join(Dir, lists:concat([Node, ".out"]))),
    Lines = [string:trim(Line) || Line <- string:split(unicode:characters_to_list(Bytes), "\n", all)],
    lists:last(["nothing" | [Line || Line <- Lines, Line =/= "", not lists:prefix("Crash dump", Line)]]).

%% Has a node call a function. The answer comes as an event with the number that this gives.
ask(Node, Module, Function, Arguments, #{channels := Channels, asked := Asked} = Lab) ->
    Number = Asked + 1,
    _ = gen_tcp:send(maps:get(Node, Channels), term_to_binary({Number, Module, Function, Arguments})),
    {Number, Lab#{asked := Number}}.

%% ---- What happens

accept(Listener, Cookie, Owner) ->
    {ok, Socket} = gen_tcp:accept(Listener),
    case gen_tcp:recv(Socket, 0, ?LONGEST_END) of
        {ok, Hello} ->
            case catch binary_to_term(Hello, [safe]) of
                {Cookie, Node} ->
                    ok = gen_tcp:controlling_process(Socket, Owner),
                    Owner ! {joined, Node, Socket};
                _ -> gen_tcp:close(Socket)
            end;
        {error, _} -> gen_tcp:close(Socket)
    end,
    accept(Listener, Cookie, Owner).

%% The next event within so many milliseconds, with its moment: what a node tells, or its end; or none.
next(Time, #{alive := Alive, channels := Channels} = Lab) ->
    End = now_ms() + Time,
    receive
        {joined, Node, Socket} ->
            inet:setopts(Socket, [{active, true}]),
            next(max(0, End - now_ms()), Lab#{channels := Channels#{Node => Socket}});
        {tcp, _, Told} -> {binary_to_term(Told), Lab};
        {tcp_closed, _} -> next(max(0, End - now_ms()), Lab);
        {Port, {exit_status, _}} ->
            case [Node || {Node, Keeper} <- maps:to_list(Alive), Keeper =:= Port] of
                [Node] ->
                    Left = Lab#{alive := maps:remove(Node, Alive), channels := maps:remove(Node, Channels)},
                    {{os:system_time(microsecond), {ended, Node}}, Left};
                [] -> throw({nodes, "the folder of the nodes is gone"})
            end
    after max(0, Time) -> {none, Lab}
    end.
