package registry;

import java.math.BigInteger;
import java.time.LocalDate;
import java.util.ArrayList;
import java.util.Arrays;
import java.util.List;
import java.util.OptionalInt;
import java.util.OptionalLong;
import java.util.SortedMap;
import java.util.TreeMap;

/** Reads the rows of texts that the library has written, or has looked at. */
final class Rows {
    private Rows() {}

    /** The rows of a text that the library has written: they have no quotes. */
    static List<String[]> written(String text) {
        return text.lines().map(row -> row.split(",", -1)).toList();
    }

    /** The rows of the log in a text. */
    static List<LogRow> log(String text) {
        return text.lines().filter(row -> row.startsWith("log,")).map(row -> logRow(row.split(",", -1))).toList();
    }

    private static LogRow logRow(String[] row) {
        // (no field of an act is one of these words)
        int end = 3;
        while (!row[end].equals("done") && !row[end].equals("refused")) {
            end++;
        }
        Instruction asked = instruction(Arrays.copyOfRange(row, 3, end));
        return new LogRow(Long.parseLong(row[1]), LocalDate.parse(row[2]), asked, outcome(row, end));
    }

    private static Outcome outcome(String[] row, int at) {
        if (row[at].equals("refused")) {
            return new Outcome.Refused(Integer.parseInt(row[at + 1]), row[at + 2]);
        }
        String figure = row[at + 1];
        List<Holding> closing = new ArrayList<>();
        for (int next = at + 2; next < row.length; next += 3) {
            closing.add(holding(row, next));
        }
        return new Outcome.Done(
                figure.isEmpty() ? OptionalLong.empty() : OptionalLong.of(Long.parseLong(figure)), closing);
    }

    static Holding holding(String[] row, int at) {
        return new Holding(Integer.parseInt(row[at]), Long.parseLong(row[at + 1]), Long.parseLong(row[at + 2]));
    }

    /** An instruction by its fields behind the tag. */
    static Instruction instruction(String[] fields) {
        OptionalInt approver = fields[2].isEmpty() ? OptionalInt.empty() : OptionalInt.of(Integer.parseInt(fields[2]));
        Act act = act(fields[3], Arrays.copyOfRange(fields, 4, fields.length));
        return new Instruction(LocalDate.parse(fields[0]), Integer.parseInt(fields[1]), approver, act);
    }

    private static Act act(String word, String[] own) {
        int first = Integer.parseInt(own[0]);
        return switch (word) {
            case "transfer" -> new Act.Transfer(first, number(own[1]), Kind.of(own[2]), amount(own[3]));
            case "return" -> new Act.Return(first, number(own[1]), Kind.of(own[2]), amount(own[3]));
            case "central" -> new Act.Central(first, number(own[1]), Kind.of(own[2]), amount(own[3]));
            case "surrender" -> new Act.Surrender(first, Kind.of(own[1]), amount(own[2]));
            case "delete" -> new Act.Delete(first, Kind.of(own[1]), amount(own[2]));
            case "create" -> new Act.Create(first, Kind.of(own[1]), amount(own[2]));
            case "reverse" -> new Act.Reverse(first, amount(own[1]));
            case "distribute" -> new Act.Distribute(first, Kind.of(own[1]), shares(own));
            case "trust" -> new Act.Trust(first, number(own[1]));
            case "untrust" -> new Act.Untrust(first, number(own[1]));
            case "status" -> new Act.SetStatus(first, Status.of(own[1]));
            case "emissions" -> new Act.Emissions(first, number(own[1]), amount(own[2]));
            case "assess" -> new Act.Assess(first, number(own[1]));
            default -> throw new IllegalArgumentException("no act has the word " + word);
        };
    }

    private static List<Share> shares(String[] own) {
        List<Share> shares = new ArrayList<>();
        for (int at = 2; at < own.length; at += 2) {
            shares.add(new Share(number(own[at]), amount(own[at + 1])));
        }
        return shares;
    }

    private static int number(String field) {
        return Integer.parseInt(field);
    }

    // An amount may have 64 bits.
    private static long amount(String field) {
        return Long.parseUnsignedLong(field);
    }

    /** The accounts among rows, each with its lists. */
    static List<Account> accounts(List<String[]> rows) {
        List<Account> accounts = new ArrayList<>();
        List<String[]> block = new ArrayList<>();
        for (String[] row : rows) {
            boolean begins = row[0].equals("account");
            boolean ends = row[0].equals("do") || row[0].equals("totals") || row[0].equals("end");
            if ((begins || ends) && !block.isEmpty()) {
                accounts.add(account(block));
                block.clear();
            }
            if (begins || !block.isEmpty() && !ends) {
                block.add(row);
            }
        }
        return accounts;
    }

    private static Account account(List<String[]> block) {
        SortedMap<Integer, Long> corrections = new TreeMap<>();
        SortedMap<Integer, Right> users = new TreeMap<>();
        SortedMap<Integer, LocalDate> trusted = new TreeMap<>();
        List<Retired> retired = new ArrayList<>();
        SortedMap<Integer, Long> emissions = new TreeMap<>();
        SortedMap<Integer, Long> figures = new TreeMap<>();
        for (String[] row : block.subList(1, block.size())) {
            switch (row[0]) {
                case "correction" -> corrections.put(number(row[1]), Long.parseLong(row[2]));
                case "user" -> users.put(number(row[1]), Right.of(row[2]));
                case "trusted" -> trusted.put(number(row[1]), LocalDate.parse(row[2]));
                case "retired" -> retired.add(retired(row));
                case "emissions" -> emissions.put(number(row[1]), Long.parseLong(row[2]));
                case "figure" -> figures.put(number(row[1]), Long.parseLong(row[2]));
                default -> throw new IllegalArgumentException("no account has a row " + row[0]);
            }
        }
        String[] head = block.get(0);
        corrections.put(1, Long.parseLong(head[7]));
        return new Account(number(head[1]), AccountKind.of(head[2]), number(head[3]), Status.of(head[4]),
                head[5].equals("yes"), head[6].equals("yes"), Long.parseLong(head[8]), Long.parseLong(head[9]),
                corrections, users, trusted, retired, emissions, figures);
    }

    private static Retired retired(String[] row) {
        // (the first period is not written)
        int period = row.length > 7 ? number(row[7]) : 1;
        OptionalInt own = row[2].equals("surrender") ? OptionalInt.of(period) : OptionalInt.empty();
        return new Retired(Long.parseLong(row[1]), own, Kind.of(row[3]), Long.parseLong(row[4]),
                LocalDate.parse(row[5]), row[6].equals("yes"));
    }

    /** The totals in a text. */
    static List<Totals> totals(String text) {
        return text.lines().filter(row -> row.startsWith("totals,")).map(row -> row.split(",")).map(row ->
                new Totals(Kind.of(row[1]), new BigInteger(row[2]), new BigInteger(row[3]), new BigInteger(row[4])))
                .toList();
    }

    /** The rules that rows say before the first account. */
    static Rules rules(List<String[]> rows) {
        int version = 2;
        int current = 1;
        String[] day = {};
        String[] lags = {};
        List<Period> periods = new ArrayList<>();
        List<Rules.Surrendering> surrender = new ArrayList<>();
        List<Integer> admins = new ArrayList<>();
        List<LocalDate> work = new ArrayList<>();
        for (String[] row : rows) {
            switch (row[0]) {
                case "format" -> version = number(row[1]);
                case "day" -> day = row;
                case "period" -> periods.add(new Period(number(row[1]), number(row[2])));
                case "current" -> current = number(row[1]);
                case "lags" -> lags = row;
                case "surrender" -> surrender.add(
                        new Rules.Surrendering(AccountKind.of(row[1]), Kind.of(row[2])));
                case "admin" -> admins.add(number(row[1]));
                case "work" -> work.add(LocalDate.parse(row[1]));
                default -> { }
            }
        }
        return new Rules(version, LocalDate.parse(day[1]), Long.parseLong(day[2]), periods, current, number(lags[1]),
                number(lags[2]), number(lags[3]), number(lags[4]), surrender, admins, work);
    }

    /** The plan in a text. */
    static List<Task> plan(String text) {
        List<Task> tasks = new ArrayList<>();
        for (String[] row : written(text)) {
            if (row[0].equals("task")) {
                tasks.add(new Task(number(row[1]), number(row[2]), List.of()));
            } else if (row[0].equals("arrow")) {
                Task last = tasks.remove(tasks.size() - 1);
                List<Task.Wait> waits = new ArrayList<>(last.waitsFor());
                waits.add(new Task.Wait(number(row[1]), number(row[3])));
                tasks.add(new Task(last.place(), last.level(), waits));
            }
        }
        return tasks;
    }

    /** The determined figures in a text. */
    static List<Determined> figures(String text) {
        return text.lines().filter(row -> row.startsWith("determined,")).map(row -> row.split(","))
                .map(row -> new Determined(number(row[1]), number(row[2]), Long.parseLong(row[3]))).toList();
    }
}
