%% What replay has at its nodes: it tells what happens there and does what it is asked, and stands in for the code of each
%% application and for epmd. A node finds the others by the files in which they tell their ports.
-module(replay_node).
-behaviour(application).
-export([up/0, boot/2, booted/0, start/2, start_phase/3, stop/1, ended/2, standing/0, places/0, used/0]).
-export([start_link/0, register_node/2, register_node/3, address_please/3, port_please/2, port_please/3,
         listen_port_please/2, names/1]).
-define(LOOPBACK, {127, 0, 0, 1}).
%% Over how long shares of a processor are told, and how often a sample for them is taken, in milliseconds.
-define(LONG, 2000).
-define(SHORT, 300).
-define(EVERY, 100).

%% ---- What happens, told in the order in which it does

%% Kernel and stdlib are started: from now on replay can be told, and can ask. The boot process, which calls this, goes away.
up() ->
    Boot = self(),
    Channel = spawn_link(fun() -> joined(Boot) end),
    receive {Channel, joined} -> tell({up, node()}) end.

joined(Boot) ->
    {ok, Socket} = gen_tcp:connect(?LOOPBACK, list_to_integer(os:getenv("REPLAY_PORT")), [binary, {packet, 4}, {active, false}]),
    ok = gen_tcp:send(Socket, term_to_binary({erlang:get_cookie(), node()})),
    persistent_term:put(?MODULE, Socket),
    register(load_of_replay, spawn_link(fun() -> sampled([]) end)),
    Boot ! {self(), joined},
    serve(Socket).

%% All nodes have the same clock, by which replay puts in order what they tell.
tell(What) -> gen_tcp:send(persistent_term:get(?MODULE), term_to_binary({os:system_time(microsecond), What})).

%% Each call has a process of its own, since some never return.
serve(Socket) ->
    case gen_tcp:recv(Socket, 0) of
        {ok, Asked} ->
            {Number, Module, Function, Arguments} = binary_to_term(Asked),
            spawn(fun() -> tell({answer, Number, catch apply(Module, Function, Arguments)}) end),
            serve(Socket);
        {error, _} -> ok
    end.

%% What a boot script calls for each application, with its answer told. As in a boot script an error isn't the script's end.
boot(App, Type) ->
    case application:start_boot(App, Type) of
        ok -> ok;
        {error, Why} -> tell({failed, App, node(), Why})
    end.

booted() -> tell({booted, node()}).

%% ---- Every application

start(Kind, App) ->
    _ = persistent_term:erase({ended, App}),
    tell({started, App, node(), Kind}),
    {ok, spawn_link(fun() -> register(top(App), self()), receive {ends, Why} -> exit(Why) end end)}.

start_phase(_, _, _) -> ok.

stop(_) ->
    {ok, App} = application:get_application(),
    tell({stopped, App, node()}).

%% The process that stands where the application's top supervisor would.
top(App) -> list_to_atom("replay_" ++ atom_to_list(App)).

%% An application ends by itself.
ended(App, Why) ->
    case whereis(top(App)) of
        undefined -> not_running;
        Top ->
            persistent_term:put({ended, App}, true),
            Top ! {ends, Why},
            ok
    end.

%% What runs here, in the order of the starts, what is started with its type, forbidden or not, and what is being started. What
%% runs elsewhere, or did, has no process. What ended here by itself still counts as started, and is left out.
standing() ->
    Info = application_controller:info(),
    Of = fun(Key) -> proplists:get_value(Key, Info, []) end,
    Ended = [App || {App, _} <- Of(started), not lists:keymember(App, 1, Of(running)), persistent_term:get({ended, App}, false)],
    Types = [{element(1, S), element(2, S)} || S <- Of(started) ++ Of(start_p_false), not lists:member(element(1, S), Ended)],
    {lists:reverse([App || {App, Id} <- Of(running), is_pid(Id)]), Types, [element(1, S) || S <- Of(starting)]}.

%% ---- Where it stands, and what it uses

%% Of the two processes that starts, stops and permissions go through: in which function of its own each of them is, or that it
%% is idle, and how many messages wait for it. Neither is asked, since it may never answer.
places() ->
    [{Name, hd([{Function, Arity} || {Module, Function, Arity, _} <- Frames, Module =:= Name] ++ [idle]), Length}
     || Name <- [dist_ac, application_controller], Pid <- [whereis(Name)], is_pid(Pid),
        [{_, Frames}, {_, Length}] <- [process_info(Pid, [current_stacktrace, message_queue_len])]].

%% What this node has used over the last two seconds, its share of a processor and reductions in a second, and the latter over
%% the last moment; none of it where it isn't up for so long.
used() ->
    load_of_replay ! {self(), used},
    receive {used, Used} -> Used end.

sampled(Samples) ->
    Asks = receive {From, used} -> [From] after ?EVERY -> [] end,
    Now = erlang:monotonic_time(millisecond),
    {Time, _} = erlang:statistics(runtime),
    {Reductions, _} = erlang:statistics(exact_reductions),
    Since = fun(Ago) -> lists:sublist([S || {At, _, _} = S <- Samples, At =< Now - Ago], 1) end,
    Used = {[{(Time - T) / (Now - At), (Reductions - R) * 1000 div (Now - At)} || {At, T, R} <- Since(?LONG)],
            [(Reductions - R) * 1000 div (Now - At) || {At, _, R} <- Since(?SHORT)]},
    [Asking ! {used, Used} || Asking <- Asks],
    sampled([{Now, Time, Reductions} | [S || {At, _, _} = S <- Samples, At > Now - 2 * ?LONG]]).

%% ---- In place of epmd: see `-epmd_module` in erl(1)

start_link() -> ignore.

register_node(Name, Port) -> register_node(Name, Port, inet).

%% The file server isn't there yet, so files are raw.
register_node(_, Port, _) ->
    {ok, Device} = file:open(port_file(os:getenv("REPLAY_NODE")), [write, raw]),
    ok = file:write(Device, [integer_to_list(Port), "\n"]),
    ok = file:close(Device),
    {ok, erlang:system_time(microsecond) rem (1 bsl 32 - 4) + 4}.

port_file(Node) -> filename:join(os:getenv("HOME"), Node ++ ".port").

address_please(Name, Host, _) ->
    case file:open(port_file(lists:concat([Name, "@", Host])), [read, raw, read_ahead, binary]) of
        {ok, Device} ->
            Line = file:read_line(Device),
            ok = file:close(Device),
            port_in(Line);
        {error, _} -> {error, nxdomain}
    end.

port_in({ok, Line}) -> {ok, ?LOOPBACK, binary_to_integer(string:trim(Line)), 6};
port_in(eof) -> {error, nxdomain}.

port_please(Name, Host) -> port_please(Name, Host, infinity).

port_please(Name, Host, _) ->
    case address_please(Name, Host, inet) of
        {ok, _, Port, Version} -> {port, Port, Version};
        {error, _} -> noport
    end.

listen_port_please(_, _) -> {ok, 0}.

names(_) -> {error, address}.
