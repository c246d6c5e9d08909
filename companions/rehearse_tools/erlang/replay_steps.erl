%% A rehearsal on the nodes, one command after the other. A run of it is a map: beside what its options are and what stands in
%% the cluster file (the nodes that each distributed application lists, too), how often each node was booted, of which kind the
%% starts were, who was told to wait, which calls were made, what has happened since the last step, which timers the program has
%% set and when they are over, when the script's clock is what it is, and when a node ended last.
-module(replay_steps).
-export([begun/3, done/3]).
%% So long nothing happens where all is over; and so long is waited for what the program says where nodes do as `live` tells.
-define(QUIET, 400).
-define(BESIDE, 1500).

%% A run of which nothing is made.
begun(Terms, Options, Lab) ->
    Entries = [E || {node, _, C} <- Terms, E <- proplists:get_value(distributed, proplists:get_value(kernel, C, []), [])],
    Options#{lab => Lab, nodes => [Node || {node, Node, _} <- Terms], apps => [App || {application, App, _} <- Terms],
             listed => maps:from_list([{element(1, E), flat(element(tuple_size(E), E))} || E <- Entries]),
             boots => maps:from_list([{Node, [App || {App, _} <- replay_lab:own(boot, C)]} || {node, Node, C} <- Terms]),
             times => #{}, kinds => #{}, told => [], calls => #{}, got => [], timers => #{}, due => replay_lab:now_ms(),
             ended => 0}.

flat(Groups) -> lists:append([case is_tuple(G) of true -> tuple_to_list(G); false -> [G] end || G <- Groups]).

%% What the nodes do for a command: the lines of the answer, and the nodes at which a call or the boot script is still open.
%% What is wanted are the answers {Rules, Live} that are waited for: that of the program, or none, and those of `live`, of which
%% one will do, or none.
done(["show"], _, Run) ->
    {Lines, Done} = replay_words:shown(Run),
    {Lines, [], Done};
done(Words, Wanted, #{patience := Patience} = Run) ->
    {First, Acted} = case refusal(Words, Run) of
        none -> act(Words, Run);
        Why -> {"refused " ++ Why, Run}
    end,
    % A node takes its time to end by itself.
    Times = case [L || Answer <- answers(Wanted), "ended " ++ _ = L <- Answer] of [] -> 1; _ -> 3 end,
    Now = replay_lab:now_ms(),
    settled(First, Wanted, Words, {Now + min(?BESIDE, ceil(Patience)), Now + ceil(Times * Patience)}, Acted).

answers({Rules, Live}) -> [Answer || Answer <- [Rules], Answer =/= none] ++ Live.

%% Why a command can't be given to a node.
refusal(["tick", D], _) -> case list_to_integer(D) of 0 -> "S6 zero_tick"; _ -> none end;
refusal([Word, Name | _], #{apps := Apps, listed := Listed} = Run) when Word =:= "start_all"; Word =:= "stop_all" ->
    App = list_to_atom(Name),
    case {lists:member(App, Apps), maps:is_key(App, Listed), up(App, Run), Word} of
        {false, _, _, _} -> "S2 unknown_app";
        {_, false, _, _} -> "S9 not_distributed";
        {_, _, [], "start_all"} -> "S8 node_not_up";
        {_, _, [], "stop_all"} -> "S12 never_started";
        _ -> none
    end;
refusal([Word, Node | More], #{nodes := Nodes, apps := Apps, lab := Lab}) ->
    Known = lists:member(list_to_atom(Node), Nodes),
    App = lists:all(fun(A) -> lists:member(list_to_atom(A), Apps) end, lists:sublist(More, 1)),
    case {Known, App, Known andalso replay_lab:mode(list_to_atom(Node), Lab), Word} of
        {false, _, _, _} -> "S1 unknown_node";
        {_, false, _, _} -> "S2 unknown_app";
        {_, _, down, "boot"} -> none;
        {_, _, _, "boot"} -> "S3 already_alive";
        {_, _, down, "crash"} -> "S5 not_alive";
        {_, _, _, "crash"} -> none;
        {_, _, up, _} -> none;
        _ -> "S8 node_not_up"
    end.

%% The nodes of an application's list that are up, in the order of the file.
up(App, #{nodes := Nodes, listed := Listed, lab := Lab}) ->
    [Node || Node <- Nodes, lists:member(Node, maps:get(App, Listed, [])), replay_lab:mode(Node, Lab) =:= up].

%% Gives a command to the nodes. The clock of the script stands still but for ticks: what else takes time is taken off the next
%% one, from the moment on at which a node began or ended, since then a timer may have begun.
act(["boot", Name], #{lab := Lab, times := Times} = Run) ->
    Node = list_to_atom(Name),
    New = replay_lab:boot(Node, Lab),
    {"ok", Run#{lab := New, times := Times#{Node => maps:get(Node, Times, 0) + 1}, due := replay_lab:now_ms()}};
act(["crash", Name], #{lab := Lab} = Run) ->
    replay_lab:crash(list_to_atom(Name), Lab),
    {"ok", Run#{due := replay_lab:now_ms()}};
act(["tick", D], #{due := Due, factor := Factor} = Run) ->
    Next = Due + ceil(list_to_integer(D) * Factor),
    {"ok", replay_watch:until(Next, Run#{due := Next})};
act([Word, App | More], Run) when Word =:= "start_all"; Word =:= "stop_all" ->
    One = case Word of "start_all" -> "start"; "stop_all" -> "stop" end,
    {Numbers, Called} = lists:mapfoldl(fun(Node, So) -> called([One, atom_to_list(Node), App | More], So) end, Run,
                                       up(list_to_atom(App), Run)),
    {{calls, Numbers}, Called};
act(Words, Run) ->
    {Number, Called} = called(Words, Run),
    {{calls, [Number]}, Called}.

%% Has a node make a call, which gets a number.
called([Word, Name | Words], #{lab := Lab, calls := Calls} = Run) ->
    Arguments = [list_to_atom(W) || W <- Words],
    {Module, Function, Given} = case {Word, Arguments} of
        {"exit", [App, normal]} -> {replay_node, ended, [App, normal]};
        {"exit", [App, abnormal]} -> {replay_node, ended, [App, failed]};
        _ -> {application, list_to_atom(Word), Arguments}
    end,
    {Number, New} = replay_lab:ask(list_to_atom(Name), Module, Function, Given, Lab),
    {Number, Run#{lab := New, calls := Calls#{Number => [Word, Name | Words]}}}.

%% Waits until all that is wanted has happened and all is quiet, or the time is over, and gives the lines of the answer.
settled(First, Wanted, Words, {_, End} = Times, Run) ->
    case replay_watch:next(?QUIET, Run) of
        {none, New} ->
            {Lines, Silent, Looked} = replay_words:lines(First, New),
            case replay_lab:now_ms() > End orelse is_over(Wanted, Lines, Silent, Times) of
                true -> {Lines, Silent, kept(Words, Lines, Looked)};
                false -> settled(First, Wanted, Words, Times, Looked)
            end;
        {_, New} -> settled(First, Wanted, Words, Times, New)
    end.

%% Whether all has happened. Where the nodes have done what `live` tells, the program's other lines, and a call that hangs by
%% `live` too, aren't waited for to the end.
is_over({Rules, []}, Lines, Silent, _) -> Silent =:= [] andalso tl(Rules) -- Lines =:= [];
is_over({Rules, Live}, Lines, Silent, {Beside, _}) ->
    IsWhole = Silent =:= [] andalso (Rules =:= none orelse tl(Rules) -- Lines =:= []),
    lists:any(fun(Told) -> tl(Told) -- Lines =:= [] andalso opens(Lines) -- Told =:= [] end, Live)
        andalso (IsWhole orelse replay_lab:now_ms() > Beside).

%% The lines of an answer that say of something that it isn't over.
opens(Lines) -> [Line || Line <- Lines, lists:member(hd(string:lexemes(Line, " ")), ["no", "pending"])].

%% What is kept of a finished step: who was told to wait, and when a node ended by itself.
kept(Words, Lines, #{told := Told, got := Got, ended := Ended, due := Due} = Run) ->
    Waits = [{list_to_atom(App), list_to_atom(Node)} || Line <- Lines, ["waits", App, Node] <- [string:lexemes(Line, " ")]],
    Exited = hd(Words) =:= "exit" andalso [Node || {_, {ended, Node}} <- Got] =/= [],
    Run#{told := Waits ++ Told, got := [], due := case Exited of true -> Ended; false -> Due end}.
