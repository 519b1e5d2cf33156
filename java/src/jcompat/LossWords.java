package jcompat;

/** Says in words why something of the old release is lost. */
final class LossWords {
    private final Classes oldRelease;
    private final Words words;

    LossWords(Classes oldRelease, Classes newRelease) {
        this.oldRelease = oldRelease;
        words = new Words(oldRelease, newRelease);
    }

    /** As <code>method void Canvas.draw(Shape) is gone</code>; null where it isn't used by a class of the old release, as through one of another library. */
    String of(Loss loss) {
        if (loss.type == null || loss.act.equals("assign") || !oldRelease.has(loss.type)) {
            return null;
        }
        boolean isClass = loss.member == null || loss.error.equals("NoClassDefFoundError");
        String rule = isClass ? "H1" : loss.member.startsWith("<init>") ? "H5" : loss.member.contains("(") ? "H8" : "H7";
        return words.say(new Line(new String[] {"0", rule, loss.type, isClass ? "-" : loss.member, loss.act, "java/lang/Object", loss.error})).get(0);
    }
}
