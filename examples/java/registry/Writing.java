package registry;

import java.nio.charset.StandardCharsets;
import java.time.LocalDate;
import java.time.format.DateTimeFormatter;
import java.util.Collection;
import java.util.Comparator;
import java.util.List;

/** Writes day texts. */
final class Writing {
    // How a date is written.
    private static final DateTimeFormatter FORM = DateTimeFormatter.ofPattern("uuuu-MM-dd");

    private final StringBuilder text = new StringBuilder();

    private Writing() {}

    static byte[] day(Rules rules, Collection<Account> accounts, List<Instruction> instructions) {
        Writing own = new Writing();
        own.rules(rules);
        accounts.stream().sorted(Comparator.comparingInt(Account::number)).forEach(own::account);
        instructions.forEach(own::instruction);
        own.row("end");
        return own.text.toString().getBytes(StandardCharsets.US_ASCII);
    }

    static byte[] row(Instruction instruction) {
        Writing own = new Writing();
        own.instruction(instruction);
        return own.text.toString().getBytes(StandardCharsets.US_ASCII);
    }

    private void row(Object... fields) {
        for (int place = 0; place < fields.length; place++) {
            text.append(place == 0 ? "" : ",").append(fields[place]);
        }
        text.append('\n');
    }

    private static String yes(boolean isSo) {
        return isSo ? "yes" : "no";
    }

    private static String date(LocalDate date) {
        return date.format(FORM);
    }

    private void rules(Rules own) {
        row("format", own.version());
        row("day", date(own.day()), own.nextRecord());
        own.periods().forEach(period -> row("period", period.first(), period.last()));
        if (own.version() > 1) {
            row("current", own.current());
        }
        row("lags", own.trustedLag(), own.otherLag(), own.listLag(), own.reversalWindow());
        own.surrender().stream()
                .sorted(Comparator.comparing(Rules.Surrendering::account).thenComparing(Rules.Surrendering::kind))
                .forEach(pair -> row("surrender", pair.account().word(), pair.kind().word()));
        own.admins().stream().sorted().forEach(user -> row("admin", user));
        own.workingDays().stream().sorted().forEach(day -> row("work", date(day)));
    }

    private void account(Account own) {
        row("account", own.number(), own.kind().word(), own.holder(), own.status().word(), yes(own.allowsOutside()),
                yes(own.hasWaiver()), own.corrections().getOrDefault(1, 0L), own.general(), own.aviation());
        own.corrections().forEach((period, factor) -> {
            if (period != 1) {
                row("correction", period, factor);
            }
        });
        own.users().forEach((user, right) -> row("user", user, right.word()));
        own.trusted().forEach((other, day) -> row("trusted", other, date(day)));
        own.retired().stream().sorted(Comparator.comparingLong(Retired::number)).forEach(this::retired);
        own.emissions().forEach((year, tonnes) -> row("emissions", year, tonnes));
        own.figures().forEach((year, figure) -> row("figure", year, figure));
    }

    private void retired(Retired own) {
        String what = own.period().isPresent() ? "surrender" : "deletion";
        // (the first period is not written)
        String later = own.period().orElse(1) == 1 ? "" : "," + own.period().getAsInt();
        row("retired", own.number(), what, own.kind().word(), own.amount(), date(own.day()),
                yes(own.isReversed()) + later);
    }

    private void instruction(Instruction own) {
        String approver = own.approver().isPresent() ? String.valueOf(own.approver().getAsInt()) : "";
        row("do", date(own.proposed()), own.proposer(), approver, own.act().word(), act(own.act()));
    }

    private static String act(Act act) {
        if (act instanceof Act.Transfer own) {
            return own.from() + "," + own.to() + "," + amount(own.kind(), own.amount());
        } else if (act instanceof Act.Return own) {
            return own.from() + "," + own.to() + "," + amount(own.kind(), own.amount());
        } else if (act instanceof Act.Central own) {
            return own.from() + "," + own.to() + "," + amount(own.kind(), own.amount());
        } else if (act instanceof Act.Surrender own) {
            return own.from() + "," + amount(own.kind(), own.amount());
        } else if (act instanceof Act.Delete own) {
            return own.from() + "," + amount(own.kind(), own.amount());
        } else if (act instanceof Act.Create own) {
            return own.to() + "," + amount(own.kind(), own.amount());
        } else if (act instanceof Act.Distribute own) {
            return own.from() + "," + own.kind().word() + shares(own.shares());
        } else {
            return actWithoutAmount(act);
        }
    }

    private static String actWithoutAmount(Act act) {
        if (act instanceof Act.Reverse own) {
            return own.account() + "," + Long.toUnsignedString(own.number());
        } else if (act instanceof Act.Trust own) {
            return own.account() + "," + own.other();
        } else if (act instanceof Act.Untrust own) {
            return own.account() + "," + own.other();
        } else if (act instanceof Act.SetStatus own) {
            return own.account() + "," + own.status().word();
        } else if (act instanceof Act.Emissions own) {
            return own.account() + "," + own.year() + "," + Long.toUnsignedString(own.tonnes());
        }
        Act.Assess own = (Act.Assess) act;
        return own.account() + "," + own.year();
    }

    private static String amount(Kind kind, long amount) {
        return kind.word() + "," + Long.toUnsignedString(amount);
    }

    private static String shares(List<Share> shares) {
        StringBuilder own = new StringBuilder();
        shares.forEach(share -> own.append(",").append(share.to()).append(",")
                .append(Long.toUnsignedString(share.amount())));
        return own.toString();
    }
}
