%% What replay reads: a rehearsal, and what the program and companions/live tell of it.
-module(replay_input).
-export([parts/1, words/1, is_command/1, terms/2, check_names/2, answers/4, live/3]).

refuse(Format, Values) -> throw({refused, io_lib:format(Format, Values)}).
usage(Format, Values) -> throw({usage, io_lib:format(Format, Values)}).
text(Format, Values) -> lists:flatten(io_lib:format(Format, Values)).

words(Line) -> string:lexemes(Line, " ").
is_command(Line) -> hd(Line) =/= $#.

%% ---- The file

%% The cluster file of an input, and the lines of its script that have words, each with its number behind ===.
parts(File) ->
    Bytes = case file:read_file(File) of
        {ok, Read} -> Read;
        {error, Why} -> refuse("~ts: ~ts", [File, file:format_error(Why)])
    end,
    Text = unicode:characters_to_list(Bytes),
    is_list(Text) orelse refuse("~ts: it isn't UTF-8", [File]),
    All = [string:trim(L, trailing, "\r") || L <- string:split(Text, "\n", all)],
    {Cluster, Script} = lists:splitwith(fun(L) -> L =/= "===" end, All),
    Behind = tl(Script ++ [""]),
    Lines = [Numbered || {_, L} = Numbered <- lists:zip(lists:seq(1, length(Behind)), Behind), words(L) =/= []],
    [refuse_line(File, length(Cluster), Numbered, "real nodes can't do this")
     || {_, L} = Numbered <- Lines, is_command(L), [Word | _] <- [words(L)],
        lists:member(Word, ["undo", "redo", "undo_all", "redo_all"])],
    {lists:append([L ++ "\n" || L <- Cluster]), Lines}.

terms(File, Text) ->
    {ok, Tokens, _} = erl_scan:string(Text),
    Split = fun Split([], [], Done) -> lists:reverse(Done);
                Split([{dot, _} = Dot | Rest], Term, Done) -> Split(Rest, [], [lists:reverse([Dot | Term]) | Done]);
                Split([Token | Rest], Term, Done) -> Split(Rest, [Token | Term], Done)
            end,
    [case erl_parse:parse_term(Term) of
        {ok, Read} -> Read;
        {error, {Line, Module, Why}} -> refuse("~ts line ~b: ~ts", [File, Line, Module:format_error(Why)])
     end || Term <- Split(Tokens, [], [])].

%% Live nodes can have these names.
check_names(File, Nodes) ->
    [refuse("~ts: a live node can't be called ~ts", [File, Node])
     || Node <- Nodes, re:run(atom_to_list(Node), "^[0-9A-Za-z_-]+@[0-9A-Za-z_.-]+$", [dollar_endonly]) =:= nomatch],
    length(lists:usort([lists:member($., atom_to_list(Node)) || Node <- Nodes])) =:= 1
        orelse refuse("~ts: nodes with a dot in their names and nodes without one don't see one another", [File]).

%% ---- The program

%% The folder companions, of which these scripts stand in rehearse_tools/erlang.
companions(Here) -> filename:dirname(filename:dirname(filename:absname(Here))).

%% What the program answers to each command, with the report behind it.
answers(Program, #{file := File, pick := Pick}, Cluster, Commands) ->
    filelib:is_regular(Program) orelse usage("there is no program ~ts: tell it by --rehearse PATH", [Program]),
    greet(Program),
    Input = [Cluster, "===\n", [[C, "\nshow\n"] || {_, C} <- Commands]],
    {Status, Lines, Error} = printed(Program, Pick, unicode:characters_to_binary(Input)),
    io:put_chars(standard_error, Error),
    Ended = text("the program ended with status ~b", [Status]),
    Status =:= 3 andalso no_command(File, Cluster, Commands, lists:last([Ended | Lines])),
    Status =:= 0 orelse refuse("~ts: ~ts", [File, lists:last([Ended | Lines])]),
    Answers = pairs(answers_in(Lines)),
    length(Answers) =:= length(Commands) orelse refuse("~ts isn't the program: it doesn't answer each command", [Program]),
    Answers =:= [] andalso refuse("~ts: it has no commands, so there is nothing to make", [File]),
    Answers.

%% Refuses what isn't the program: by its answer to this it is known.
greet(Program) ->
    case printed(Program, "first", <<"{node, nobody, []}.\n===\nshow\n">>) of
        {0, ["ok", "now 0", "node nobody down 0"], _} -> ok;
        {_, _, Error} ->
            Told = string:lexemes(lists:flatten(Error), "\n"),
            Why = lists:join(" ", Told ++ ["it doesn't answer as that does" || Told =:= []]),
            refuse("~ts isn't the program: ~ts", [Program, Why])
    end.

%% Refuses the file for a line that is no command. The program counts the lines that it was given, two for each command.
no_command(File, Cluster, Commands, "bad line " ++ Count) ->
    Numbered = lists:nth((list_to_integer(Count) + 1) div 2, Commands),
    refuse_line(File, length([$\n || $\n <- Cluster]), Numbered, "it is no command here");
no_command(File, _, _, Told) -> refuse("~ts: ~ts", [File, Told]).

%% Refuses the file for a line behind the so many of its cluster file and ===.
refuse_line(File, Front, {Number, Line}, Why) ->
    refuse("~ts line ~b (line ~b behind ===): ~ts: ~ts", [File, Front + 1 + Number, Number, Why, Line]).

%% The status of the program for an input, the lines that it prints, and what it writes to standard error: that comes behind a byte 0.
%% The file of the input goes away as soon as it is open.
printed(Program, Pick, Input) ->
    File = string:trim(os:cmd("mktemp -t rehearse-replay.XXXXXX")),
    ok = file:write_file(File, Input),
    Code = "exec < \"$2\"; rm -f \"$2\"; { told=$(\"$0\" run --pick \"$1\" 2>&1 >&3 3>&-); done=$?; } 3>&1; "
           "exec 2> /dev/null; printf '\\0%s' \"$told\"; exit $done",
    {Status, Bytes} = run("/bin/sh", ["-c", Code, Program, Pick, File]),
    [Answers | Error] = [chars(Part) || Part <- binary:split(Bytes, <<0>>)],
    {Status, string:lexemes(Answers, "\n"), [[Text, "\n"] || Text <- Error, Text =/= ""]}.

%% Bytes as a text, or none where they are no UTF-8.
chars(Bytes) ->
    case unicode:characters_to_list(Bytes) of
        Text when is_list(Text) -> Text;
        _ -> ""
    end.

%% The status of a finished program, and what it printed.
run(Path, Words) ->
    Port = open_port({spawn_executable, Path}, [{args, Words}, exit_status, binary]),
    Read = fun Read(So) ->
        receive
            {Port, {data, More}} -> Read([So, More]);
            {Port, {exit_status, Status}} -> {Status, iolist_to_binary(So)}
        end
    end,
    Read([]).

answers_in(Lines) ->
    lists:reverse(lists:foldl(fun(Line, So) ->
        case {Line, So} of
            {"ok" ++ _, _} -> [[Line] | So];
            {"refused" ++ _, _} -> [[Line] | So];
            {_, [Answer | Done]} -> [Answer ++ [Line] | Done];
            {_, []} -> []
        end end, [], Lines)).

pairs([Answer, ["ok" | ["now " ++ _ | _] = Report] | Rest]) -> [{Answer, Report} | pairs(Rest)];
pairs(_) -> [].

%% ---- The companion `live`

%% What it tells of each command: the outcomes of so many orders of messages, each as its lines and the numbers of the orders
%% that give it.
live(Program, #{file := File, here := Here, pick := Pick, orders := Orders}, Commands) ->
    Companion = filename:join(companions(Here), "live"),
    filelib:is_regular(Companion) orelse usage("there is no companion ~ts, which --compare asks", [Companion]),
    Python = os:find_executable("python3"),
    Python =/= false orelse usage("there is no python3, which the companion live needs: --compare rules does without", []),
    Words = ["--json", "--rehearse", Program, "--pick", Pick, "--orders", integer_to_list(Orders), filename:absname(File)],
    {Status, Bytes} = run(Python, [Companion | Words]),
    Told = case replay_json:read(Bytes) of
        {ok, #{"commands" := Read}} -> Read;
        _ -> refuse("~ts: companions/live ended with status ~b", [File, Status])
    end,
    Lines = [{Number, Line} || #{"line" := Number, "command" := Line} <- Told],
    Lines =:= Commands orelse refuse("~ts: companions/live doesn't answer each command", [File]),
    [[{Answer, Which} || #{"live" := Answer, "which" := Which} <- Outcomes] || #{"outcomes" := Outcomes} <- Told].
