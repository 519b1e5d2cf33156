package jcompat;

import java.math.BigInteger;
import java.util.regex.Matcher;
import java.util.regex.Pattern;

/** A version by Semantic Versioning, and the numbers that may come after it, as the gate <code>version</code> counts steps. */
final class SemanticVersion {
    /** How large a step from one version to another is. */
    enum Step { PATCH, MINOR, MAJOR }

    private static final Pattern FORM = Pattern.compile("(0|[1-9]\\d*)\\.(0|[1-9]\\d*)\\.(0|[1-9]\\d*)(-[0-9A-Za-z.-]+)?(\\+[0-9A-Za-z.-]+)?");

    private final BigInteger major;
    private final BigInteger minor;
    private final BigInteger patch;
    private final boolean isPreRelease;

    private SemanticVersion(Matcher parts) {
        major = new BigInteger(parts.group(1));
        minor = new BigInteger(parts.group(2));
        patch = new BigInteger(parts.group(3));
        isPreRelease = parts.group(4) != null;
    }

    /** Null where the text is none. */
    static SemanticVersion of(String text) {
        Matcher parts = FORM.matcher(text == null ? "" : text);
        return parts.matches() ? new SemanticVersion(parts) : null;
    }

    /** The smallest number after this one with a step that is large enough. Below 1.0.0 a minor step is as good as a major one, after a pre-release any. */
    String next(Step step) {
        if (isPreRelease) {
            return text(major, minor, patch);
        }
        if (step == Step.PATCH) {
            return text(major, minor, patch.add(BigInteger.ONE));
        }
        return step == Step.MINOR || major.signum() == 0 ? text(major, minor.add(BigInteger.ONE), BigInteger.ZERO) : text(major.add(BigInteger.ONE), BigInteger.ZERO, BigInteger.ZERO);
    }

    /** The step to a later version. */
    Step to(SemanticVersion later) {
        boolean isMinor = later.minor.compareTo(minor) > 0;
        return isPreRelease || later.major.compareTo(major) > 0 || major.signum() == 0 && isMinor ? Step.MAJOR : isMinor ? Step.MINOR : Step.PATCH;
    }

    private static String text(BigInteger major, BigInteger minor, BigInteger patch) {
        return major + "." + minor + "." + patch;
    }
}
