%% What the nodes did, in the words of the program.
-module(replay_words).
-export([lines/2, shown/1, overtaken/2]).

text(Format, Values) -> lists:flatten(io_lib:format(Format, Values)).
words(Line) -> string:lexemes(Line, " ").

%% The lines of a step so far, and the nodes at which a call or the boot script is still open. What a command comes to is its
%% word or its calls.
lines(First, Run) ->
    {Waits, #{got := Timed, calls := Calls} = Looked} = waits(First, Run),
    Got = [Event || {_, Event} <- Timed],
    Ended = [Node || {ended, Node} <- Got],
    {Answer, Current} = case First of
        {calls, Numbers} -> {joint(Numbers, Got, Looked), Numbers};
        _ -> {[First], []}
    end,
    Events = [Line || Event <- Got, Line <- event(Event, Ended, Current, Looked)],
    Silent = [list_to_atom(hd(tl(maps:get(N, Calls)))) || N <- Current, not lists:any(fun(E) -> is_answer(N, E) end, Got)],
    Unbooted = [Node || {up, Node} <- Got] -- ([Node || {booted, Node} <- Got] ++ Ended),
    {[hd(Answer ++ ["no answer"]) | Events ++ Waits], Silent ++ Unbooted, Looked}.

is_answer(Number, {answer, Number, _}) -> true;
is_answer(_, _) -> false.

event({up, Node}, _, _, _) -> [text("up ~ts", [Node])];
event({booted, _}, _, _, _) -> [];
event({ended, Node}, _, _, _) -> [text("ended ~ts", [Node])];
event({started, App, Node, Kind}, _, _, _) -> [text("started ~ts ~ts ~ts", [App, Node, kind(Kind)])];
event({stopped, App, Node}, Ended, _, _) -> [text("stopped ~ts ~ts", [App, Node]) || not lists:member(Node, Ended)];
event({failed, App, Node, Why}, _, _, _) -> [text("failed ~ts ~ts ~0tp", [App, Node, Why])];
event({answer, Number, Result}, _, Current, #{calls := Calls}) ->
    % An earlier call, or a late answer to what no command asked.
    [text("answered ~ts: ~ts", [lists:join(" ", Words), answer(Words, Result)])
     || {ok, Words} <- [maps:find(Number, Calls)], not lists:member(Number, Current)].

%% The answer to the calls of a command, or none where one of them hasn't returned. Of several, a node at which there was
%% nothing to do counts only where all say so; then the first that says why it didn't.
joint(Numbers, Got, #{calls := Calls}) ->
    Answers = [answer(maps:get(N, Calls), Result) || Number <- Numbers, {answer, N, Result} <- Got, N =:= Number],
    Done = [A || A <- Answers, A =/= "refused S11 already_started", A =/= "refused S12 never_started"],
    case length(Answers) < length(Numbers) of
        true -> [];
        false -> lists:sublist([A || A <- Done, A =/= "ok"] ++ Done ++ Answers, 1)
    end.

kind(Kind) when is_atom(Kind) -> atom_to_list(Kind);
kind({Kind, Node}) -> text("~ts ~ts", [Kind, Node]).

%% The answer to a call, by what it returned.
answer(_, ok) -> "ok";
answer(["start" | _], {error, {already_started, _}}) -> "refused S11 already_started";
answer(["stop" | _], {error, {not_started, _}}) -> "refused S12 never_started";
answer(["takeover" | _], {error, {not_running_distributed, _}}) -> "refused S13 not_running";
answer(["takeover" | _], {error, {already_running_locally, _}}) -> "refused S14 runs_here";
answer(["exit" | _], not_running) -> "refused S15 not_running_here";
answer(_, {error, {Why, App}}) when Why =:= not_started; Why =:= not_running ->
    text("refused S17 dependency_not_started ~ts", [App]);
answer(_, {error, Why}) -> text("error ~0tp", [Why]);
answer(_, Other) -> text("error ~0tp", [Other]).

%% Who waits: of what a node boots that has just come up or come to the end of its boot script, and what was just started.
waits(First, #{got := Timed, boots := Boots, told := Told, calls := Calls} = Run) ->
    Got = [Event || {_, Event} <- Timed],
    Ended = [Node || {ended, Node} <- Got],
    Up = [Node || {up, Node} <- Got] -- Ended,
    Booted = [Node || {booted, Node} <- Got] -- Ended,
    Started = case First of
        {calls, Numbers} -> [{list_to_atom(App), list_to_atom(Node)} || {answer, N, ok} <- Got, lists:member(N, Numbers),
                             ["start", Node, App, _] <- [maps:get(N, Calls)]];
        _ -> []
    end,
    Asked = [{App, Node} || Node <- lists:usort(Up ++ Booted), App <- maps:get(Node, Boots), not lists:member({App, Node}, Told)],
    lists:foldl(fun({App, Node}, {Lines, So}) ->
        {{Running, Types, Starting}, New} = replay_watch:standing(Node, So),
        Line = case {lists:member(App, Running), lists:keymember(App, 1, Types), lists:member(App, Starting)} of
            {true, _, _} -> [];
            {_, true, _} -> [text("waits ~ts ~ts", [App, Node])];
            {_, _, true} -> [text("pending ~ts ~ts", [App, Node]) || lists:member(Node, Up)];
            _ -> []
        end,
        {Lines ++ Line, New}
    end, {[], Run}, lists:usort(Asked ++ Started)).

%% The report of the nodes.
shown(#{nodes := Nodes, times := Times} = Run) ->
    lists:foldl(fun(Node, {Lines, #{lab := Lab} = So}) ->
        Head = text("node ~ts ~ts ~b", [Node, replay_lab:mode(Node, Lab), maps:get(Node, Times, 0)]),
        {Standing, New} = replay_watch:standing(Node, So),
        {Lines ++ [Head | standing_lines(Node, Standing, New)], New}
    end, {["ok"], Run}, Nodes).

standing_lines(Node, {Running, Types, _}, #{apps := Apps, kinds := Kinds}) ->
    [text("  running ~ts ~ts ~ts", [App, proplists:get_value(App, Types), kind(maps:get({App, Node}, Kinds))])
     || App <- Running, lists:member(App, Apps)]
    ++ [text("  waiting ~ts ~ts", [App, Type]) || {App, Type} <- Types, lists:member(App, Apps), not lists:member(App, Running)].

%% Timers of the program that are over at the nodes, since the commands took so long, and are not in the script: what the nodes
%% do then can't be compared.
overtaken(["now " ++ Now | Report], #{timers := Timers, due := Due, factor := Factor} = Run) ->
    Clock = list_to_integer(Now),
    Set = maps:from_list([{Line, maps:get(Line, Timers, Due + ceil((list_to_integer(lists:last(words(Line))) - Clock) * Factor))}
                          || "timer " ++ _ = Line <- Report]),
    {[Line || {Line, End} <- maps:to_list(Set), End < replay_lab:now_ms()], Run#{timers := Set}}.
